int main(void) {
  return (-2147483647 - 1) % -1;
}

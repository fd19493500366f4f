int main(void) {
  return (-2147483647L - 1) % -1 == 0;
}

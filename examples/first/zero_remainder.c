int main(void) {
  return 12 % 0;
}

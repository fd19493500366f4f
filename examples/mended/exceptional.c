int main(void) {
  return 2147483647L + 1 == 2147483648L;
}

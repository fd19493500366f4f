int main(void) {
  return 1u << 31 == 2147483648u;
}

int printf(const char *, ...);
int main(void) {
  char c = -1;
  printf("%hhx\n", c);
  return 0;
}

int printf(const char *, ...);
int main(void) {
  printf("%ld\n", 1L);
  return 0;
}

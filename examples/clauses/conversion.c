int printf(const char *, ...);
int main(void) {
  printf("%d\n", 1L);
  return 0;
}

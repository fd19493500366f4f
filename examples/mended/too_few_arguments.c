int printf(const char *, ...);
int main(void) {
  printf("%d\n", 1);
  return 0;
}

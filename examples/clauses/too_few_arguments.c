int printf(const char *, ...);
int main(void) {
  printf("%d\n");
  return 0;
}

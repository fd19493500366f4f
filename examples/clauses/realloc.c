void *realloc(void *, unsigned long);
int main(void) {
  int x = 1;
  return realloc(&x, 8) == 0;
}

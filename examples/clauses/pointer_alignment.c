int main(void) {
  char c[8];
  int *p = (int *)(c + 1);
  return p != 0;
}

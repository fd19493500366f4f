int main(void) {
  int c[2];
  int *p = c + 1;
  return p != 0;
}

int main(void) {
  int a[2];
  int *p = a + 3;
  return p == a;
}

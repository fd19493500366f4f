int main(void) {
  int a[2] = {a[1] = 5};
  return a[0] + a[1];
}

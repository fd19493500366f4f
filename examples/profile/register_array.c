int main(void) {
  register int a[2] = {3, 4};
  return a[1];
}

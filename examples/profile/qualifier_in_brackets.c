int first(int a[const 3]) { return a[0]; }
int main(void) {
  int x[3] = {1, 2, 3};
  return first(x);
}

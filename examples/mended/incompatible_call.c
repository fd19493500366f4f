int twice(int n) { return 2 * n; }
int main(void) {
  int (*f)(int) = twice;
  return f(1);
}

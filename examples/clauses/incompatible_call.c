int twice(int n) { return 2 * n; }
int main(void) {
  long (*f)(long) = (long (*)(long))twice;
  return (int)f(1);
}

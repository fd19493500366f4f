int main(void) {
  int *q = 0;
  return
  *
  q;
}

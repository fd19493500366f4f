int main(void) {
  char d[8];
  int *p =
  (int *)
  (d + 1);
  return p != 0;
}

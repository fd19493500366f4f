int main(void) {
  int *p = 0;
  return p ? *p : 0;
}

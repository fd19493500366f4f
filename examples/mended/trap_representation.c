int main(void) {
  _Bool b = 0;
  b = 2;
  return b;
}

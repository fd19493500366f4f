int main(void) {
  int x = 1;
  x += (x = 7, 1);
  return x;
}

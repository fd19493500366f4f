int main(void) {
  char c[2][4] = {[0][3] = 'y', [0] = "x"};
  return c[0][3];
}

int main(void) {
  int m[2][2] = {[0][1] = 5, [0] = {1}};
  return m[0][1];
}

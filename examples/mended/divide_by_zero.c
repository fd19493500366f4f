int main(void) {
  int divisor = 0;
  return divisor ? 1 / divisor : 0;
}

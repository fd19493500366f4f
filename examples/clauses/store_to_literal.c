int main(void) {
  "ab"[0] = 'c';
  return 0;
}

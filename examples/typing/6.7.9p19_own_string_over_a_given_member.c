int main(void) {
  struct { char s[4]; } t = {.s[3] = 'z', .s = "a"};
  return t.s[3];
}

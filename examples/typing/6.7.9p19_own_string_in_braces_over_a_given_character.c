struct { char s[4]; } t = {
  .s[3] = 'z', .s = {"a"}};
int main(void) { return t.s[3]; }

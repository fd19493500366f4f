int main(void) {
  union { int i; short s[2]; } u;
  u.i = 5;
  u.s[1] = u.i;
  return u.s[1];
}

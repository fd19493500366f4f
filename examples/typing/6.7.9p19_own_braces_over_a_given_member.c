struct S { int a, b; };
int main(void) {
  struct S s[1] = {[0].b = 2, [0] = {1}};
  return s[0].b;
}

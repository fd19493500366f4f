struct S { char c; int i; };
int main(void) {
  struct S s = {1};
  return ((unsigned char *)&s)[1];
}

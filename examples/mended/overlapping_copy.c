struct pair { int a, b; };
int main(void) {
  int m[3] = {1, 2, 3};
  struct pair copy = *(struct pair *)m;
  *(struct pair *)(m + 1) = copy;
  return m[2];
}

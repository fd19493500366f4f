struct pair { int a, b; };
int main(void) {
  int m[3];
  *(struct pair *)(m + 1) = *(struct pair *)m;
  return 0;
}

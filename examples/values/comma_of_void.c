void nothing(void) {}
struct P { int a, b; };
int main(void) {
  int x, y = 0;
  struct P p = {1, 2};
  for (x = 0; x < 2; x++, (void)0);
  x = 1, (void)y;
  y++, nothing();
  (void)(x, y);
  (void)p, (void)p.a, (void)&p, (void)main;
  x ? (void)y : (void)p;
  x ? nothing() : (y++, (void)p);
  x ? (y++, (void)x) : (void)((void)p, (void)nothing());
  (void)(void)y, (void)*(void *)&y;
  (x, (void)y), (void)(x ? (void)x : (void)p.b);
  return x + y;
}

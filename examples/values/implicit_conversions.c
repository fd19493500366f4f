// What each operator makes of its operands (6.3, 6.5), and each initializer of its object (6.7.9): every test fails where a conversion is left out,
// made to another type, or made of an operand that has none.
int printf(const char *, ...);
long l;
int i;
char c;
unsigned u;
int *p;
const int *q;
const int k = 1;
_Bool b;
void *v;
enum e { A, B } e;
int a[4];
int one(void) { return 1; }
int silent(void) {}
long of_two(long m, char d) { return m * 1000 + d; }
int of_long(void) { return l; }
struct s { char c; int i; } x, *xp = &x;
struct s copied(void) { return x; }
struct { int a; struct { int b; }; } anonymous;
enum { MINUS = -1, ZERO };
struct tag { char c; } tag;

int assigned(void) {
  i = -1;
  l = i;
  if (l != -1) return 1;
  i = k;
  if (i != 1) return 2;
  p = &i;
  q = p;
  p = (int *)q;
  p = (int *)p;
  (long)l;
  if (p != &i || *q != 1) return 3;
  e = B;
  i = e;
  e = i;
  e = e;
  if (i != 1 || e != B) return 4;
  // 6.3.1.2p1: any other value than 0 becomes 1
  b = p;
  if (b != 1) return 5;
  b = (int *)0;
  if (b != 0) return 6;
  b = 256;
  if (b != 1) return 7;
  // 6.3.2.3p5, p6, p7
  if ((int *)(long)p != p || sizeof((long)p) != 8 || *(char *)p != 1) return 8;
  i = 0;
  if ((int *)(long)i != 0) return 9;
  i = 1;
  // 6.3.2.3p3
  p = 0;
  if (p != 0 || p) return 10;
  p = 1 - 1;
  if (p) return 11;
  p = (void *)0;
  if (!(p == 0)) return 12;
  p = (void *)(void *)0;
  if (p != (void *)0) return 13;
  p = &i;
  if ((i ? p : 0) != &i || (i - 1 ? p : 0) != 0) return 14;
  return 0;
}

int operated(void) {
  // 6.3.1.1p2
  c = -128;
  if (-c != 128 || sizeof(-c) != 4 || sizeof(+c) != 4 || +c != -128) return 1;
  b = 0;
  if (~b != -1 || sizeof(~b) != 4) return 2;
  if (!p || sizeof(!p) != 4) return 3;
  // 6.3.1.8p1
  u = 1;
  i = -2;
  if (u + i != 4294967295u || u + i < 1) return 4;
  u = 4294967295u;
  l = -1;
  if (u < l || !(l < u)) return 5;
  c = 127;
  if (c * c != 16129) return 6;
  // 6.5.7p3: the right operand is promoted alone
  i = 3;
  l = 2;
  u = 1;
  c = 64;
  if (i << l != 12 || sizeof(i << l) != 4 || c >> u != 32 || sizeof(c >> u) != 4) return 7;
  c = -1;
  if ((i ? c : l) != -1L || sizeof(i ? c : l) != 8) return 8;
  if ((i && p) != 1 || (c || l) != 1 || sizeof(c || l) != 4) return 9;
  // 6.5.6p8, p9
  p = a + 2;
  q = a;
  i = 1;
  c = -1;
  if (p - i != a + 1 || p + c != a + 1 || 1 + p != a + 3 || p - q != 2 || sizeof(p - q) != 8) return 10;
  v = p;
  if (!(p == v) || p < q || !(q < p)) return 11;
  a[2] = 5;
  a[3] = 6;
  if (*p != 5 || *&i != 1 || &*p != p || p[1] != 6 || &i == a) return 12;
  // a void expression has no value (6.3.2.2p1)
  *v;
  return 0;
}

int updated(void) {
  i = 1;
  c = 127;
  l = 0;
  // 6.3.1.3p3, own: the value wraps
  if (++i != 2 || ++c != -128 || --l != -1) return 1;
  p = a + 2;
  if (i++ != 2 || i != 3 || p-- != a + 2 || p != a + 1) return 2;
  c = 100;
  i = 100;
  if ((c += i) != -56) return 3;
  l = 4294967296;
  i = -1;
  if ((l += i) != 4294967295) return 4;
  c = 2;
  l = 4294967299;
  if ((c *= l) != 6) return 5;
  c = 1;
  l = 3;
  if ((c <<= l) != 8) return 6;
  p = a + 3;
  c = 2;
  if ((p -= c) != a + 1) return 7;
  return 0;
}

int called(void) {
  // 6.9.1p12: no value of these is used
  silent();
  (void)silent();
  silent(), 1;
  if ((one(), 1) != 1 || (1, one()) != 1 || (0 ? one() : 2) != 2 || one() + 1 != 2) return 1;
  // 6.5.2.2p7: arguments are converted to the types of parameters
  if (of_two(1, 258) != 1002) return 2;
  // 6.5.2.2p6, p7: behind an ellipsis they are promoted
  c = -5;
  l = -6;
  if (printf("%d %ld\n", c, l, one) != 6) return 3;
  // 6.8.6.4p3
  l = 4294967298;
  if (of_long() != 2) return 4;
  return 0;
}

int chosen(void) {
  x.c = 3;
  x.i = 4;
  if (xp->i != 4 || x.c != 3 || copied().i != 4 || copied().c != 3) return 1;
  x = *xp;
  x = copied();
  if (x.i != 4 || x.c != 3) return 2;
  anonymous.b = 7;
  if (anonymous.b != 7 || (char *)&anonymous.b - (char *)&anonymous != 4) return 3;
  if (ZERO != 0 || sizeof(int[3]) != 12 || _Alignof(long) != 8 || sizeof sizeof 1 != 8) return 4;
  if ((1, 2, 3) != 3 || ((1, 2), 3) != 3) return 5;
  // 6.8.4.2p5: the labels are converted to the promoted type of the controlling expression
  c = 1;
  switch (c) { case 257: return 6; case 1: break; default: return 7; }
  switch (e) { case 257: return 8; case B: break; default: return 9; }
  switch (1L) { case 4294967297: return 10; case 1: break; default: return 11; }
  return 0;
}

int scoped(void) {
  { char i; i = 1; if (sizeof i != 1) return 1; }
  if (sizeof i != 4) return 2;
  int l = sizeof l;
  if (l != 4) return 3;
  char i = 258;
  if (i != 2 || sizeof i != 1) return 4;
  struct tag { long l; };
  if (sizeof(struct tag) != 8 || sizeof tag != 1) return 5;
  return 0;
}

int initialized(void) {
  struct { int a[2]; int b; } elided = {1, 2, 3};
  int middle[3] = {[1] = 5};
  int turned[] = {[1] = 1, [0] = 2};
  struct { char c; int i; } rest = {1};
  char text[4] = "a", cut[1] = "a";
  union { char c; int i; } first = {1}, named = {.i = 1};
  struct { int a; union { char c; int i; } u; } zero = {1};
  struct s whole = x;
  int braced = {1};
  if (elided.a[0] != 1 || elided.a[1] != 2 || elided.b != 3) return 1;
  if (middle[0] != 0 || middle[1] != 5 || middle[2] != 0) return 2;
  if (sizeof turned != 8 || turned[0] != 2 || turned[1] != 1) return 3;
  if (rest.c != 1 || rest.i != 0) return 4;
  if (text[0] != 'a' || text[1] != 0 || text[2] != 0 || text[3] != 0 || cut[0] != 'a' || sizeof cut != 1) return 5;
  if (first.c != 1 || named.i != 1) return 6;
  if (zero.a != 1 || zero.u.c != 0) return 7;
  if (whole.c != x.c || whole.i != x.i || braced != 1) return 8;
  return 0;
}

int main(void) {
  printf("%d ", assigned());
  printf("%d ", operated());
  printf("%d ", updated());
  printf("%d ", called());
  printf("%d ", chosen());
  printf("%d ", scoped());
  printf("%d\n", initialized());
  return 0;
}

// What objects with static storage hold before the run begins (6.7.9).
char s[3] = "ab";
char t[2] = "ab";
char u[] = {"ab"};
char v[4] = "a";
struct { int a[2]; int b; } elided = {1, 2, 3};
int again[4] = {[2] = 1, 2, [0] = 3, 4};
struct { struct { short x, y; } m[2]; short z; } deep = {.m[0].y = 1, 2, 3, 4};
struct { short a; long b; } pairs[2] = {{1}, 2, 3};
union { char c; int i; } first = {1};
union { char c; int i; } named = {.i = -2};
int g(void) { return 1; }
int a[3];
int *p = &a[1];
int *q = a + 2;
const char *text = "xy" + 1;
int (*f)(void) = g;
struct t { char c; int i; } x;
int *member = &x.i;
int **null = 0;
long minus = -1;
_Bool truth = 5;
unsigned char low = 300;
int before;
extern int behind;
int *there = &behind;
int behind = 3;

// Whether n bytes from here on are these.
int holds(const void *from, const char *bytes, int n) {
  const char *at = from;
  int i;
  for (i = 0; i < n; i++)
    if (at[i] != bytes[i])
      return 0;
  return 1;
}

int main(void) {
  if (!holds(s, "ab\0", sizeof s) || !holds(t, "ab", sizeof t) || !holds(u, "ab\0", sizeof u) || !holds(v, "a\0\0\0", sizeof v))
    return 1;
  if (sizeof s != 3 || sizeof t != 2 || sizeof u != 3 || sizeof v != 4)
    return 2;
  if (!holds(&elided, "\1\0\0\0\2\0\0\0\3\0\0", sizeof elided) || sizeof elided != 12)
    return 3;
  if (!holds(again, "\3\0\0\0\4\0\0\0\1\0\0\0\2\0\0", sizeof again) || sizeof again != 16)
    return 4;
  if (!holds(&deep, "\0\0\1\0\2\0\3\0\4", sizeof deep) || sizeof deep != 10)
    return 5;
  if (!holds(&pairs[0].a, "\1", 2) || !holds(&pairs[1].a, "\2", 2) || !holds(&pairs[1].b, "\3\0\0\0\0\0\0", 8))
    return 6;
  if (pairs[0].b != 0 || sizeof pairs != 32 || (char *)&pairs[1].b - (char *)pairs != 24)
    return 7;
  if (first.c != 1 || !holds(&named, "\xfe\xff\xff\xff", 4))
    return 8;
  if (p != a + 1 || q != &a[2] || *p != 0 || text[0] != 'y' || text[1] != 0 || f != g || f() != 1)
    return 9;
  if (member != &x.i || (char *)member - (char *)&x != 4 || x.c != 0 || *member != 0 || null != 0)
    return 10;
  if (minus != -1L || sizeof minus != 8 || truth != 1 || low != 44)
    return 11;
  if (before != 0 || there != &behind || *there != 3)
    return 12;
  return 0;
}

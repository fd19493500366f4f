int printf(const char *, ...);
struct S { int a, b; };
struct N { struct { int x; }; union { int u; long l; }; struct S s[2]; char t[4]; };
int square[2][2] = {[0][1] = 5, [0] = 1, [1][0] = 7};
char rows[][4] = {[2] = "b", [0] = "abcd", "xyz"};
struct N global = {.s[1].b = 9, .s[0] = {.b = 4}, .l = 3, .x = 2, .t = "q", .t[3] = 'z'};
int main(void) {
  int i;
  struct S s[1] = {[0].b = 2, [0] = 1};
  struct S t[1] = {[0] = {1}, [0].b = 2};
  struct S one = {6, 7}, u[3] = {one, {8}, [2].b = 9, [2].a = 10};
  int m[2][2] = {1, 2, 3};
  int k[] = {[3] = 4, 5, [1] = 2, 3};
  char c[2][4] = {[0] = "x", [0][3] = 'y', "ab"};
  char d[2] = "de", e[] = {"f"};
  struct N n = {{1}, {2}, {{3}, 4, 5}, {'t'}};
  printf("%d %d %d %d\n", s[0].a, s[0].b, t[0].a, t[0].b);
  for (i = 0; i < 3; i++) printf("%d %d ", u[i].a, u[i].b);
  printf("%d %d %d %d\n", m[0][0], m[0][1], m[1][0], m[1][1]);
  for (i = 0; i < (int)(sizeof k / sizeof *k); i++) printf("%d ", k[i]);
  for (i = 0; i < 8; i++) printf("%d ", c[i / 4][i % 4]);
  printf("%c%c%zu\n", d[0], d[1], sizeof e);
  printf("%d %d %d %d %d %d %d\n", n.x, n.u, n.s[0].a, n.s[0].b, n.s[1].a, n.s[1].b, n.t[0] + n.t[1]);
  printf("%d %d %d %d %s %s %zu\n", square[0][0], square[0][1], square[1][0], square[1][1], rows[1], rows[2], sizeof rows);
  printf("%d %ld %d %d %d %d %s%c\n", global.x, global.l, global.s[0].a, global.s[0].b, global.s[1].a, global.s[1].b, global.t, global.t[3]);
  return 0;
}

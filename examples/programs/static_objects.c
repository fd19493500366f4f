int printf(const char *, ...);

static int table[3][2] = {{1, 2}, {3}, {[1] = 6}};
static int *middle = &table[1][0];
static const char *names[] = {"zero", "one", [3] = "three"};
static char word[] = "abc", tight[3] = "xyz";
extern int later;
int later = 5;
int tentative;
int tentative;
static struct { int n; struct { char c; long l; } in; } nested = {1, {'c', 2}};

static int next(void) {
  static int calls = 10;
  return ++calls;
}

int main(void) {
  printf("%d %d %d %d\n", table[2][1], *middle, middle[1], table[2][0]);
  printf("%s %s %d\n", names[1], names[3], names[2] == 0);
  printf("%lu %lu %c %d %d\n", sizeof word, sizeof names / sizeof *names, tight[2], later, tentative);
  int first = next();
  int second = next();
  printf("%d %d %ld\n", first, second, nested.in.l);
  return nested.n;
}
// Static objects and their initializers (6.2.4p3, 6.7.9p4, 6.7.9p10).

int printf(const char *, ...);

typedef int T;
enum colour { RED, GREEN = 5, BLUE };
static int x = 1;

static int f(T x) {
  int sum = x;
  {
    int x = 10;
    sum += x;
    {
      extern int y;
      sum += y;
    }
  }
  for (int x = 0; x < 2; x++) sum += x;
  return sum + x;
}

int y = 100;

int main(void) {
  int T = 3;
  struct x { int x; } s = {x + T};
  enum { RED = 50 };
  printf("%d %d %d %d\n", f(2), s.x, RED, BLUE);
  goto x;
x:
  return GREEN;
}
// Hidden names (6.2.1p4).

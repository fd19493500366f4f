int printf(const char *, ...);

typedef int (*binary)(int, int);

static int add(int a, int b) { return a + b; }
static int sub(int a, int b) { return a - b; }
static int mul(int a, int b) { return a * b; }

static const struct {
  char name;
  binary apply;
} table[] = {{'+', add}, {'-', sub}, {'*', mul}};

static binary find(char name) {
  for (unsigned i = 0; i < sizeof table / sizeof *table; i++)
    if (table[i].name == name) return table[i].apply;
  return 0;
}

static int fold(binary f, const int *v, int n, int start) {
  for (int i = 0; i < n; i++) start = (*f)(start, v[i]);
  return start;
}

int main(void) {
  const int v[] = {1, 2, 3, 4, 5};
  const char names[] = "+-*/";
  for (const char *s = names; *s; s++) {
    binary f = find(*s);
    if (f)
      printf("%c %d\n", *s, fold(f, v, 5, 1));
    else
      printf("%c none\n", *s);
  }
  return fold(mul, v, 5, 1);
}

int printf(const char *, ...);

enum { N = 4 };

static void multiply(long (*c)[N], const long (*a)[N], const long (*b)[N]) {
  for (int i = 0; i < N; i++)
    for (int j = 0; j < N; j++) {
      long sum = 0;
      for (int k = 0; k < N; k++) sum += a[i][k] * b[k][j];
      c[i][j] = sum;
    }
}

int main(void) {
  const long a[N][N] = {{1, 1}, {1}, {[3] = 1}, {[2] = 2, 3}};
  const long b[N][N] = {{2, 0, 1, 0}, {0, 3}, {1, 1, 1, 1}, {4}};
  long c[N][N];
  multiply(c, a, b);
  long trace = 0;
  for (int i = 0; i < N; i++) {
    for (int j = 0; j < N; j++) printf("%4ld", c[i][j]);
    printf("\n");
    trace += c[i][i];
  }
  return (int)trace;
}

typedef unsigned long uintptr_t;
void *malloc(unsigned long);
void *realloc(void *, unsigned long);
void free(void *);
int printf(const char *, ...);

static int count(const int *first, const int *last) { return (int)(last - first); }

int main(void) {
  int a[5] = {1, 2, 3, 4, 5};
  int *p = a + 1, **pp = &p;
  *(*pp)++ = 20;
  *++*pp += 7;
  printf("%d %d %d %d\n", a[1], a[3], count(a, p), p > a);
  uintptr_t bits = (uintptr_t)p;
  int *q = (int *)bits;
  printf("%d %d\n", *q, q == p);
  unsigned char *raw = (unsigned char *)&a[2];
  printf("%d %d\n", raw[0], raw[1]);
  int *heap = malloc(2 * sizeof *heap);
  if (!heap) return 1;
  heap[0] = 6;
  heap[1] = 7;
  int *more = realloc(heap, 4 * sizeof *more);
  if (!more) {
    free(heap);
    return 2;
  }
  more[2] = more[0] * more[1];
  int result = more[2];
  free(more);
  const char *s = "walk";
  while (*s) s++;
  printf("%d\n", s[-1]);
  return result;
}

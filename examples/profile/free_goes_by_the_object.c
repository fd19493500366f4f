void *malloc(unsigned long);
void free(void *);
int main(void) {
  char *a = malloc(16), *b = malloc(16);
  unsigned long end = (unsigned long)(a + 16), start = (unsigned long)b;
  char *p = (char *)end;
  long n = p - a;
  free(p);
  return end == start ? (int)n : 0;
}

void *realloc(void *, unsigned long);
void free(void *);
int main(void) {
  void *p = realloc(0, 8);
  int failed = p == 0;
  free(p);
  return failed;
}

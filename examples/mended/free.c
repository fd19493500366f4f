void *malloc(unsigned long);
void free(void *);
int main(void) {
  int *x = malloc(sizeof *x);
  free(x);
  return 0;
}

void *malloc(unsigned long);
void free(void *);
int main(void) {
  char *p = malloc(4);
  free(p + 1);
  return 0;
}

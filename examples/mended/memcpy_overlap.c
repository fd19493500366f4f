void *memcpy(void *, const void *, unsigned long);
int main(void) {
  char c[4];
  memcpy(c + 2, c, 2);
  return 0;
}

void *memcpy(void *, const void *, unsigned long);
int main(void) {
  int i = 1;
  short s;
  memcpy(&s, &i, sizeof s);
  return s;
}

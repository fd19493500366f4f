char *strcpy(char *, const char *);
int main(void) {
  char c[4] = "ab";
  strcpy(c + 1, c);
  return 0;
}

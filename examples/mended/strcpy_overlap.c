char *strcpy(char *, const char *);
int main(void) {
  char c[6] = "ab";
  strcpy(c + 3, c);
  return 0;
}

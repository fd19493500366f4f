typedef unsigned long size_t;
void *malloc(size_t);
void free(void *);
size_t strlen(const char *);
char *strcpy(char *, const char *);
int strcmp(const char *, const char *);
const char *words[4] = {"undefined", "unspecified", "implementation", "conforming"};
void turn(char *s) {
  size_t n = strlen(s);
  for (size_t i = 0, j = n - 1; i < j; i++, j--) {
    char c = s[i];
    s[i] = s[j];
    s[j] = c;
  }
}
int main(void) {
  int same = 0;
  for (int k = 0; k < 1500; k++) {
    const char *word = words[k & 3];
    char *s = malloc(strlen(word) + 1);
    strcpy(s, word);
    turn(s);
    for (char *p = s; *p; p++)
      if (*p == 'n')
        *p = 'N';
    if (strcmp(s, word) == 0)
      same++;
    free(s);
  }
  return same;
}

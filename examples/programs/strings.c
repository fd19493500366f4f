typedef unsigned long size_t;
size_t strlen(const char *);
char *strcpy(char *, const char *);
int strcmp(const char *, const char *);
char *strchr(const char *, int);
void *memcpy(void *, const void *, size_t);
void *memmove(void *, const void *, size_t);
void *memset(void *, int, size_t);
int memcmp(const void *, const void *, size_t);
int puts(const char *);
int printf(const char *, ...);

int main(void) {
  char a[32], b[32];
  strcpy(a, "hello");
  strcpy(a + 5, ", world");
  puts(a);
  memcpy(b, a, strlen(a) + 1);
  memmove(b + 2, b, 6);
  puts(b);
  memset(b, '*', 4);
  b[4] = 0;
  puts(b);
  char *comma = strchr(a, ',');
  printf("%ld %lu %d\n", (long)(comma - a), strlen(comma), strcmp("abc", "abd") < 0);
  printf("%d %d\n", memcmp("aab", "aaa", 3) > 0, strchr(a, 'z') == 0);
  return (int)strlen(a);
}

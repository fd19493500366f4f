# 1 "semicolon.c"
# 1 "stdio.h" 1
int printf(const char *, ...);
# 2 "semicolon.c" 2
int main(void) { char *s = "abc"; s[0] = 'x'; printf("%s\n", s) return 0; }

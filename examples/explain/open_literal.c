# 1 "o.c"
int main(void) { char *s = "x; }

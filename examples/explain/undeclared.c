# 1 "u.c"
int main(void) { return puts("x"); }

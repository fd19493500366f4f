# 1 "a.c"
int main(void) { asm volatile (""); return 0; }

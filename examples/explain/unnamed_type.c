# 1 "n.c"
int main(void) { uint32_t n = 0; return n; }

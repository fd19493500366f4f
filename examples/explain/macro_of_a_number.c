# 1 "e.c"
#define N 3
int main(void) { return N; }

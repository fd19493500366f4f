# 1 "d.c"
#define BEGIN {
#define N 3
int main(void) BEGIN return 0; }

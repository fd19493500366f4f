# 1 "o.c"
int main(void) { return 0;

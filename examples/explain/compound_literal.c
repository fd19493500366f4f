# 1 "c.c"
int main(void) { return (int[]){1}[0]; }

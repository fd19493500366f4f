# 1 "field.c"
struct s { int a : 3; };
int main(void) { return 0; }

# 1 "f.c"
struct s { int n; char text[]; };
int main(void) { return 0; }

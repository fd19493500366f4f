# 1 "w.c"
int main(void) { return sizeof L"x"; }

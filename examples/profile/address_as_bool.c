int x;
_Bool there = &x;
int main(void) { return there; }

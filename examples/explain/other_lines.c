# 1 "examples/explain/other_lines.written"
int main(void) { return puts("x"); }

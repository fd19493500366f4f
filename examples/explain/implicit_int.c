# 1 "m.c"
main(void) { return 0; }

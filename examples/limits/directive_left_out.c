int printf(const char*,...);int main(void){int k;printf("%n",&k);return 0;}

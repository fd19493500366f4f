int printf(const char*,...);int main(void){printf("%4096d",1);return 0;}

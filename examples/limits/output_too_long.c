int printf(const char*,...);int main(void){for(;;)printf("%4095d",1);}

void *malloc(unsigned long);int main(void){for(;;)malloc(1048576);}

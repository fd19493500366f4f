void *malloc(unsigned long);int main(void){long *p=malloc(8);*p=5;return *(int*)p;}

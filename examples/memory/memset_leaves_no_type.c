void *malloc(unsigned long);void *memset(void*,int,unsigned long);int main(void){long *p=malloc(8);*p=5;memset(p,0,8);return *(int*)p;}

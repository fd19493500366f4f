void *malloc(unsigned long);void free(void*);int main(void){int *p=malloc(4);*p=1;return *p+(free(p),0);}

void *malloc(unsigned long);void free(void*);int main(void){int *p=malloc(4);free(p);return p==0;}

void *malloc(unsigned long);void free(void*);int main(void){int *p=malloc(4);return (free(p),0)+(free(p),0);}

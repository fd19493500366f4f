void *malloc(unsigned long);void free(void*);int main(void){return malloc(4)==malloc(8);}

void *malloc(unsigned long);void free(void*);int f(void){return 1;}int main(void){int k=1,*q=malloc(4);*q=1;return *q+(k+f(),free(q),0);}

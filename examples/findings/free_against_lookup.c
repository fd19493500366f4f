typedef unsigned long uintptr_t;void *malloc(unsigned long);void free(void*);int main(void){char *p=malloc(4);uintptr_t u=(uintptr_t)p;return (free(p),1)+((char*)u!=0);}

void *malloc(unsigned long);unsigned long n=4;int f(void){n=8;return 0;}int main(void){return (malloc(n)!=0)+f();}

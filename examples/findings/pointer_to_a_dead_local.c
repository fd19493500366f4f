int *p;int z;int f(void){int l=1;p=&l;return 0;}int main(void){p=&z;return (p!=0)+f();}

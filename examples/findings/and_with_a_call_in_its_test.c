int f(void){return 1;}int main(void){int j=1,k=1;return ((k+f())&&j)+(j=1);}

int f(void){return 1;}int main(void){int j=1,k=1,*p=&k;return (*p=f(),j)+(j=1);}

int f(void){return 1;}int main(void){int j=1,k=1,a[4];return a[(k+f(),j)]=j++;}

int i;int f(void){i=2;return 0;}int g(int a,int b,int c){return a;}int main(void){return g(i,f(),i++);}

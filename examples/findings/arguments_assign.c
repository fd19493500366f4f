int i;int f(int a,int b){return a+b;}int main(void){return f(i=1,i=2);}

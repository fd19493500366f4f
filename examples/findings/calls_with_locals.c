int f(int n){int k;k=n+1;return k;}int main(void){return f(1)+f(2);}

int putchar(int);int f(int a,int b){return a+b;}int main(void){return f(putchar('x'),putchar('y'));}

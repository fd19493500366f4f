int putchar(int);int f(void){return 1;}int main(void){int k=1;return (k+f(),putchar('a'))+putchar('b');}

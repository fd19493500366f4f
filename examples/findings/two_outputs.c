int putchar(int);int main(void){return putchar('a')+putchar('b');}

int getchar(void);int putchar(int);int main(void){return getchar()+putchar('a');}

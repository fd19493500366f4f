int(*f(char n))[sizeof
n]{return 0;}int main(void){return 0;}
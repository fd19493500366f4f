int getchar(void);int digit(void){return getchar()-'0';}int main(void){return digit()+digit();}

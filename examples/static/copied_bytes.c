void f(char *d,char *s){while(*s)*d++=*s++;}int main(void){return 0;}

int f(void){return 1;}int getchar(void);int main(void){return (f()&&getchar())+getchar();}

int f(void){return 1;}int main(void){int j=1;return (f()+f(),j)+(j=1);}

int f(int n){return n;}int main(void){f(1);return f(2);}

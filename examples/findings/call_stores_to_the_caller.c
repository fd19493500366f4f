int set(int *p){*p=4;return 1;}int main(void){int x=0;return x+set(&x);}

int a,b;int *p=&a;int f(void){p=&b;return 3;}int main(void){*p=f();return a+b;}

int f(int a){return a;}int main(void){int(*p)(void);
p=f;
return p();}
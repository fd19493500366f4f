int f(
auto int a){return a;}int main(void){return f(1);}
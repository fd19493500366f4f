
int f(int a,int){return a;}int main(void){return f(1,2);}
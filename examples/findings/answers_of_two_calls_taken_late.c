int f(void){return 1;}int x;int main(void){return (x=f())+(f()+x);}

int x;int f(void){return x;}int main(void){return (x+=1)+f();}

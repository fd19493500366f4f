int n;int u(void){return ++n;}int f(void){return 1;}int main(void){int k=1;return (k+f(),u())+u();}

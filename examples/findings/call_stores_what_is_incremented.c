int i;int f(void){i=5;return 1;}int main(void){return i++ + f();}

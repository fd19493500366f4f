int i;int f(void){return i;}int main(void){i=1;return i++ + f();}

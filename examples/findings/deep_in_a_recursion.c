int g;int f(int n){if(n==0)return g++ +g;return f(n-1);}int main(void){return f(1);}

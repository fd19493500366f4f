int f(int*p){return *p;}int main(void){const int a=1;
return f(&a);}
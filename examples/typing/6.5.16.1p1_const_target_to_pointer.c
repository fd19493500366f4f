int main(void){int a=1;const int*q=&a;int*p;
p=q;
return *p;}
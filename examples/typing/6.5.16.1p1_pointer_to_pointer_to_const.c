int main(void){int a=5;int*p=&a;const int**q;
q=&p;
return **q;}
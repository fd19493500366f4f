int main(void){int a=7;void*v=&a;
return (a?main:v)!=0;}
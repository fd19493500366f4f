int main(void){int a=1;int*p=&a;
return (p|p)!=0;}
int main(void){int a=1;void*p=&a;
--p;
return a;}
int*p,x=1;int main(void){return *(p=&x)+*p;}

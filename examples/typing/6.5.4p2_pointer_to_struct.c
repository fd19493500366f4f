struct S{int a;};int main(void){int a=1;
return ((struct S)&a).a;}
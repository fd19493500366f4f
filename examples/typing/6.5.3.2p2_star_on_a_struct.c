struct S{int*a;};int main(void){struct S s={0};
*s;
return 0;}
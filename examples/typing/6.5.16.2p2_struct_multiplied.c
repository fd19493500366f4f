struct S{int a;};int main(void){struct S s={1};
s*=2;
return s.a;}
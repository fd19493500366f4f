struct S{int a;};int main(void){struct S s={1};
return 0||s;}
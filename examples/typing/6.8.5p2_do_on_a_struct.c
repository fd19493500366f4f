struct S{int a;};int main(void){struct S s={0};do;while(
s);return 0;}
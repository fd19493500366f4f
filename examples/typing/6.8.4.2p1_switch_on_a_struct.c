struct S{int a;};int main(void){struct S s={0};switch(
s){default:return 1;}}
struct S{int a;};int main(void){struct S;
return sizeof(struct S);}
struct S{int a;};
int main(void){const struct S;
return sizeof(struct S);}

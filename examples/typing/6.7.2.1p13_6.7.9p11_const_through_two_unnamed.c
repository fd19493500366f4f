struct T{const union{int b;struct{int c[2];};};};int main(void){struct T t={{7}};const int*p=t.c;
int*q=t.c;return*p+*q;}
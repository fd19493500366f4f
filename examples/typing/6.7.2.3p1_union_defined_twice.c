union U{int a;};
union U{int a;};int main(void){return 0;}
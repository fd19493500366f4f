int a[2];int main(void){int *p=a;*p++=*p;return 0;}

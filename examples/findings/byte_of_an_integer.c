int x;int main(void){unsigned char *p=(unsigned char*)&x;return p[3]++ +x;}

int main(void){int x=7;int *p=&x;int *q;unsigned char *s=(unsigned char*)&p;unsigned char *d=(unsigned char*)&q;for(int i=0;i<8;i++)d[i]=s[i];return *q;}

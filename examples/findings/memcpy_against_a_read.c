void *memcpy(void*,const void*,unsigned long);int a[2]={1,2},b[2];int main(void){return a[0]+(memcpy(a,b,4),0);}

int main(void){int i=1,j=2;int a[2]={i++,j++};return a[0]+a[1];}

int main(void){int z=0;int a[2]={1,1/z};return a[0];}

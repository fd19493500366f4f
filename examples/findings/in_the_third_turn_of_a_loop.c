int a[4];int main(void){int j=2;for(int i=0;i<4;i++)a[i]=a[i]+(a[j]=i);return 0;}

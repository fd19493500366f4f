int a[3]={1,2,3};int main(void){int i=1,j=2;return a[i]+a[j]++;}

int a[3];int main(void){int i=1,j=1;return a[i]+a[j]++;}

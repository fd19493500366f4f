int a[];int main(void){extern int a[5];
a[4]=1;return a[4];}
int a[3];int main(void){int i=0;while(i<2&&a[i++]==a[i]);return i;}

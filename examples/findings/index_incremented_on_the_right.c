int a[3];int main(void){int i=1;a[i]=i++;return a[1];}

int i;int main(void){int a[1]={i++ +i};return 0;}

int main(void){int i=0;int a[2][2]={{i++,1},{2,i++}};return a[0][0]+a[1][1];}

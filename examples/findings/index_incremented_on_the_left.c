int a[2],i;int main(void){a[i++]+=i;return 0;}

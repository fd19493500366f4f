int a[2]={1,2};int main(void){int *p=a;return *p++ +*p++;}

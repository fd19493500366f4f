int main(void){const int a=1;
a+=1;
return a;}
int main(void){const int a=1;
++a;
return a;}
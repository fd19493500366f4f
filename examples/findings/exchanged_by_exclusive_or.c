int a=1,b=2;int main(void){a^=b^=a^=b;return a;}

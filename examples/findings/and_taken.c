int main(void){int x=1,y=1;x=x++&&y;return x;}

int main(void){int x=0,y=1;x=x++&&y;return x;}

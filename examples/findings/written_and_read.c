int main(void){int x;return (x=1)+x;}

int main(void){int x=1;return (unsigned long)&x==(unsigned long)&x;}

int main(void){int x;return x+(x=1);}

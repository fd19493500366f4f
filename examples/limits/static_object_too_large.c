char a[67108865];int main(void){return 0;}

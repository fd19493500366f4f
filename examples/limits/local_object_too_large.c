int main(void){char a[67108865];return 0;}

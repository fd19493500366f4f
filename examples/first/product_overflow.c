int main(void){return 65536*32768;}

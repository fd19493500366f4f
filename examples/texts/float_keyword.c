float f;int main(void){return 0;}

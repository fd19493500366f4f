int i=2147483647;int main(void){return i+i++;}

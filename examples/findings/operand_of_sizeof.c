int main(void){int i=1;return sizeof(i++)+i-5;}

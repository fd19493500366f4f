int main(void){int i=1;return *(unsigned*)&i==1;}

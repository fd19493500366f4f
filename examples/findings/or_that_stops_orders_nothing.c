int x;int main(void){return x=((x=1)||0);}

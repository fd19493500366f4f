int x;int main(void){return x=((x=0)||1);}

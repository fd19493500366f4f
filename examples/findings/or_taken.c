int x,y=1;int main(void){x=x++||y;return x;}

int x=1,y;int main(void){x=x++||y;return x;}

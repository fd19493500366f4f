struct s{int a;int b;};struct s x={1,2};int main(void){x=x;return x.b;}

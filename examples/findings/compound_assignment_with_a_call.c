int x=1;int f(void){x=5;return 2;}int main(void){x+=f();return x;}

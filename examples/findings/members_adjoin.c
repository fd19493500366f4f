struct s{int a;int b;}s;int main(void){return (s.a=1)+(s.b=2);}

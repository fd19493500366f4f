struct s{int x;}a,b;int main(void){return (a=b).x+(b=a).x;}

struct s{char c[8];}x,y;int main(void){return (x=y,0)+(x.c[5]=1);}

struct s{int a;}g;struct s f(void){return g;}int main(void){int j=1,k=1;return (k+f().a,j)+(j=1);}

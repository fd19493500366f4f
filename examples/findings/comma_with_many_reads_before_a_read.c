int main(void){int j=1,k=1,m;return ((m=1)+k+k+k+k+k+k+k+k+k+k+k+k+k+k+k+k+k+k+k+k+k+k+k+k+k+k+k+k+k+k+k+k+k+k,j)+(j=1);}

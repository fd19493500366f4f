int main(void){int z=0;int*p;
p=z;
return p==0;}
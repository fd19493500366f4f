int main(void){int z=0;int*p=&z;
return (z?p:z)!=0;}
int main(void){int z=0;int*p=&z;
return p==z;}
int z;int main(void){return (z=1)+1/z;}

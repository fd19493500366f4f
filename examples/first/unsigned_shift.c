int main(void){return (1u<<31)!=0;}

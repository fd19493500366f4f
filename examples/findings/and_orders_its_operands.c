int i;int main(void){return (i=3)&&i==3;}

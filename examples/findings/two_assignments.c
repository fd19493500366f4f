int i;int main(void){return (i=1)+(i=1);}

int i;int main(void){return (i++,i++,i);}

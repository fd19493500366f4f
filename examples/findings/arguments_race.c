int i;int h(int a,int b){return a+b;}int main(void){return h(i++,i);}

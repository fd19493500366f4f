int a,b;int main(void){return (a=1)+(a?b++:(b=5))+b;}

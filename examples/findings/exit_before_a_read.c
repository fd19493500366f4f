void exit(int);int a;int main(void){return (exit(3),1)+a;}

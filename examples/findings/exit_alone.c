void exit(int);int i;int main(void){i=(exit(2),0);return 0;}

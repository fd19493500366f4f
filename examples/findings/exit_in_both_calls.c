void exit(int);int q(void){exit(1);return 0;}int main(void){return q()+q();}

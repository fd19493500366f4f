void exit(int);int main(void){int a=1;return a+(exit(3),1);}

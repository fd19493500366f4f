void exit(int);int i;int main(void){return i++ +(exit(2),0);}

void exit(int);int quit(void){exit(3);return 0;}int a;int main(void){return a+quit();}

void exit(int);int quit(void){exit(3);return 0;}int main(void){int p;p=quit();return p;}

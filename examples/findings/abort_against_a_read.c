void abort(void);int a;int quit(void){abort();return 0;}int main(void){return a+quit();}

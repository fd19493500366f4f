void abort(void);int n;int check(void){if(n)abort();return 1;}int set(void){n=1;return 2;}int main(void){return check()+set();}

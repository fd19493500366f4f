void abort(void);int main(void){abort();return 0;}

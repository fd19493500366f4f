int n=1;int stop(void){n=0;return 2;}int wait(void){while(n);return 3;}int main(void){return stop()+wait();}

int n=1;int stop(void){n=0;return 2;}int down(void){return n?down():3;}int main(void){return stop()+down();}

int c=1,i=5;int main(void){i=c?i++:i;return i;}

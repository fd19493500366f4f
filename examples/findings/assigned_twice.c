int i;int main(void){i=i=1;return i;}

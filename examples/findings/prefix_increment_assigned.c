int i;int main(void){i=++i;return i;}

int i;int main(void){i=(i,i++);return i;}

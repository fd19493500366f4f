int i=1;int main(void){i+=i++;return i;}

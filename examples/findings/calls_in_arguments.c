int n;int next(void){return ++n;}int sub(int a,int b){return a-b;}int main(void){return sub(next(),next());}

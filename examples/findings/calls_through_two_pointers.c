int inc(int *p){return ++*p;}int main(void){int i=1,j=2;return inc(&i)*inc(&j);}

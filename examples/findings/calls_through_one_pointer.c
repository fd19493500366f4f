int inc(int *p){return ++*p;}int main(void){int i=1;return inc(&i)*inc(&i);}

int main(void){int x=1,y=2;int *p=&x;int *q=&y;return *p+(*q)++;}

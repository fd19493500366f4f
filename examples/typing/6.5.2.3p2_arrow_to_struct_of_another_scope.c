int f(void){return sizeof(struct q*);}
int g(struct q *p){return p->a;}int main(void){return 0;}
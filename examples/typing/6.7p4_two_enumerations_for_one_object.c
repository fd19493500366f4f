extern int x;extern enum A{P}x;
extern enum B{Q}x;int main(void){return 0;}
int main(void){
int x;
x=y;
return 0;}
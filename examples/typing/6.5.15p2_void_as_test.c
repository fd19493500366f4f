void f(void){}int main(void){
return f()?1:2;}
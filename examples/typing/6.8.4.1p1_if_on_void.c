void f(void){}int main(void){if(
f())return 1;return 0;}
void f(void){}int main(void){for(;
f();)return 1;return 0;}
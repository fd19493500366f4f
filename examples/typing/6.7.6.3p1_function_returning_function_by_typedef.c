typedef int F(void);
F f(void);int main(void){return 0;}
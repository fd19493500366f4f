int main(void){
typedef _Noreturn void F(void);return 0;}
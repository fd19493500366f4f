

int f(void){return z;}int main(void){return 0;}
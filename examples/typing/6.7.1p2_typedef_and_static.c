
typedef static int T;int main(void){return 0;}
int main(void){
typedef inline int T;return 0;}
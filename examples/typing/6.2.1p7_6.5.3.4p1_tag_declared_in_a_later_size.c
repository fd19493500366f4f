int main(void){
int a[sizeof(struct U)][sizeof(struct U{int x[2];})];return 0;}
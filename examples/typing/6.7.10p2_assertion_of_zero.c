int main(void){
_Static_assert(0,"no");return 0;}
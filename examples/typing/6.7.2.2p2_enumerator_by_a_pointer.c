enum{A=
(int*)0};int main(void){return 0;}
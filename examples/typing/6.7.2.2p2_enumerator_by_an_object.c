int n=1;enum{A=
n};int main(void){return A;}
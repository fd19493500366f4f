int x;enum{A=
(x=1)};int main(void){return A;}
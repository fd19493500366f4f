int i;int f(int a){return a;}int main(void){int(*p[2])(int)={f,f};return p[i++](i);}

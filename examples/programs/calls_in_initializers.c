struct p{int a,b;};int f(int x){return x;}int main(void){int a[3]={f(1),[2]=f(2)};struct p p={f(3),f(4)};char s[]="abc";return a[0]+a[1]+a[2]+p.b+s[1];}
// Initializer lists with calls, a designator and a string (6.7.9p7, 6.7.9p14, 6.7.9p23).

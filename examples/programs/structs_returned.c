struct s{int a[4];};struct s g(int n){struct s r;r.a[0]=n;r.a[1]=n+1;return r;}int main(void){struct s x=g(2);x=g(3);return x.a[0]?x.a[1]:0;}
// Structures as results (6.8.6.4p4, 6.5.2.2p5).

struct s{int a;int b;};union u{struct s s[2];struct{int pad;struct s t;}v;}u={{{1,2},{3,4}}};struct s same(struct s p){return p;}int main(void){u.v.t=same(u.s[0]);return u.v.t.b;}

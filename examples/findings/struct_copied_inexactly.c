struct s{int a;int b;};union u{struct s s[2];struct{int pad;struct s t;}v;}u={{{1,2},{3,4}}};int main(void){u.v.t=u.s[0];return 0;}

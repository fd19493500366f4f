union u{char c[8];int i[2];}u;int main(void){return (u.c[3]=1)+(u.i[1]=5);}

union u{int i;char c[4];}u;int main(void){return u.i+(u.c[3]=1);}

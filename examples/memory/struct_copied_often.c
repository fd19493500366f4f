struct s{char c[1048576];};struct s a,b;int main(void){for(int k=0;k<40;k++)a=b;return a.c[1048575];}

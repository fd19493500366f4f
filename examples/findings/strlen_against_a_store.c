unsigned long strlen(const char*);char s[4]="ab";int main(void){return (s[1]=0)+(int)strlen(s);}

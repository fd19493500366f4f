int i;int main(void){return i+(i=1,i);}

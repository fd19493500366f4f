int n=3;int get(void){return n;}int main(void){return get()*get();}

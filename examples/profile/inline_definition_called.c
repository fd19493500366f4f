inline int three(void){return 3;}
int main(void){return three();}

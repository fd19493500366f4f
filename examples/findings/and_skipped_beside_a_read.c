int i;int main(void){return (i++&&0)+i;}

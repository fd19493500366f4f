int f(void){return 1;}int main(void){int i=1,j;j=(i++,i+=2,f(),i)+1;return j;}
// Operands of a comma, one after the other (6.5.17p2).

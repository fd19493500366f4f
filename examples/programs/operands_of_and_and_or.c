int x;int main(void){int y=0;return (x++ && y) || (0 && x) || (1 && (x=2)) ? 3 : 4;}
// Operands of and and or that are skipped (6.5.13p4, 6.5.14p4, 6.5.15p4).

int main(void){
inline int main(void);return 0;}
int main(void){for(int i=0;i<1;i++);
i=1;return 0;}
int main(void){{int y;}
y=1;return 0;}
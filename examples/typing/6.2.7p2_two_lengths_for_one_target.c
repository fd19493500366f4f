extern int(*p)[];int main(void){{extern int(*p)[2];}
{extern int(*p)[3];}return 0;}
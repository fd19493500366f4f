# 1 "v.c"
int main(void)
{
	volatile int i = 0;
	return i;
}

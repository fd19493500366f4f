# 1 "limit.c"
void *calloc(unsigned long, unsigned long);
void abort(void);
int main(void)
{
    int n = 600000;
    if (!calloc(n, 4))
        abort();
    return 0;
}

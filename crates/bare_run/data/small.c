int twice(int a)
{
    return a + a;
}

int main(void)
{
    int sum = 0;
    for (int i = 0; i < 10; i++)
        sum += twice(i);
    return sum - 90;
}

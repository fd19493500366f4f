# 1 "examples/explain/tabs.written"
int main(void)
{
 int i = 1;
 i = i++;
 return i;
}

# 1 "examples/explain/header_macro.written"
# 1 "scale.h" 1
#define MUL(a,b) ((a) * (b) >> 16)
# 2 "examples/explain/header_macro.written" 2
int main(void)
{
    int a = 196608, b = 262144;
    int c = ((a) * (b) >> 16);
    return c;
}

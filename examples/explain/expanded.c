# 0 "examples/explain/expanded.source"
# 0 "<built-in>"
#define __STDC__ 1
# 0 "<built-in>"
#define __STDC_VERSION__ 201710L
# 0 "<built-in>"
#define __STDC_UTF_16__ 1
# 0 "<built-in>"
#define __STDC_UTF_32__ 1
# 0 "<built-in>"
#define __STDC_HOSTED__ 1
# 0 "<command-line>"
# 1 "examples/explain/expanded.source"
#define SCALE 16
#define MUL(a,b) ((a) * (b) >> SCALE)

int main(void)
{
 int a = 3 << 16, b = 4 << 16;
 int c = ((a) * (b) >> 16);
 return c >> 16;
}

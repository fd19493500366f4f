# 0 "constant.c"
# 0 "<built-in>"
# 0 "<command-line>"
# 1 "constant.c"
struct point { int x, y; };
struct line {
    struct point from;
    const struct point to;
};
int main(void)
{
    struct line l = { { 0, 0 }, { 3, 4 } };
    struct line *p = &l;
    p->to.x = 5;
    return l.to.x;
}

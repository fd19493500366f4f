# 0 "7.19p3_offsetof_beyond_the_room.c"
# 0 "<built-in>"
# 0 "<command-line>"
# 1 "7.19p3_offsetof_beyond_the_room.c"
# 1 "headers/stddef.h" 1




# 1 "headers/_cub_base.h" 1




typedef unsigned long size_t;
# 6 "headers/stddef.h" 2

typedef long ptrdiff_t;
typedef long max_align_t;



typedef int wchar_t;



static union { max_align_t _a; char _bytes[65536]; } _cub_room;
# 2 "7.19p3_offsetof_beyond_the_room.c" 2
struct large {
    char bytes[65536];
    int last;
};
int main(void)
{
    return ((size_t)((char *)&((struct large *)(void *)&_cub_room)->last - _cub_room._bytes + 0 * sizeof(char[sizeof(struct large) <= sizeof _cub_room ? 1 : -1]))) != 0;
}

# 0 "7.2.1.1p2_assert_tells_and_aborts.c"
# 0 "<built-in>"
# 0 "<command-line>"
# 1 "7.2.1.1p2_assert_tells_and_aborts.c"
# 1 "headers/assert.h" 1




int printf(const char *, ...);
void abort(void);



static inline void _cub_assert(const char *_text, const char *_file, int _line)
{
    printf("%s:%d: Assertion `%s' failed.\n", _file, _line, _text);
    abort();
}
# 2 "7.2.1.1p2_assert_tells_and_aborts.c" 2
int main(void)
{
    int n = 3;
    ((n > 2) ? (void)0 : _cub_assert("n > 2", "7.2.1.1p2_assert_tells_and_aborts.c", 5));
    ((n > 3) ? (void)0 : _cub_assert("n > 3", "7.2.1.1p2_assert_tells_and_aborts.c", 6));
    return 0;
}

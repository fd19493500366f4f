# 0 "7.8.2.1p2_imaxabs_of_the_least.c"
# 0 "<built-in>"
# 0 "<command-line>"
# 1 "7.8.2.1p2_imaxabs_of_the_least.c"
# 1 "headers/inttypes.h" 1




# 1 "headers/stdint.h" 1




typedef signed char int8_t;
typedef short int16_t;
typedef int int32_t;
typedef long int64_t;
typedef unsigned char uint8_t;
typedef unsigned short uint16_t;
typedef unsigned int uint32_t;
typedef unsigned long uint64_t;

typedef signed char int_least8_t;
typedef short int_least16_t;
typedef int int_least32_t;
typedef long int_least64_t;
typedef unsigned char uint_least8_t;
typedef unsigned short uint_least16_t;
typedef unsigned int uint_least32_t;
typedef unsigned long uint_least64_t;

typedef signed char int_fast8_t;
typedef long int_fast16_t;
typedef long int_fast32_t;
typedef long int_fast64_t;
typedef unsigned char uint_fast8_t;
typedef unsigned long uint_fast16_t;
typedef unsigned long uint_fast32_t;
typedef unsigned long uint_fast64_t;

typedef long intptr_t;
typedef unsigned long uintptr_t;
typedef long intmax_t;
typedef unsigned long uintmax_t;
# 6 "headers/inttypes.h" 2
# 1 "headers/_cub_number.h" 1




# 1 "headers/_cub_base.h" 1




typedef unsigned long size_t;
# 6 "headers/_cub_number.h" 2
# 1 "headers/_cub_errno.h" 1




static int _cub_errno;
# 7 "headers/_cub_number.h" 2


struct _cub_number { unsigned long _size; _Bool _minus, _over; };

static inline struct _cub_number _cub_number(const char *_s, char **_end, int _base)
{
    struct _cub_number _r = {0, 0, 0};
    const char *_behind = _s;
    int _d;
    void *memcpy(void *, const void *, size_t);
    if (_base < 0 || _base == 1 || _base > 36)
        memcpy(0, 0, 0);
    while (*_s == ' ' || (*_s >= '\t' && *_s <= '\r'))
        _s++;
    if (*_s == '-' || *_s == '+')
        _r._minus = *_s++ == '-';
    if (*_s == '0' && (_base == 0 || _base == 16) && (_s[1] == 'x' || _s[1] == 'X')) {
        _behind = ++_s;
        _s++;
        _base = 16;
    }
    if (_base == 0)
        _base = *_s == '0' ? 8 : 10;
    for (;; _behind = ++_s) {
        _d = *_s >= '0' && *_s <= '9' ? *_s - '0' : *_s >= 'a' && *_s <= 'z' ? *_s - 'a' + 10 : *_s >= 'A' && *_s <= 'Z' ? *_s - 'A' + 10 : 36;
        if (_d >= _base)
            break;
        if (_r._size >> 58 && _r._size > (0xfffffffffffffffful - _d) / _base)
            _r._over = 1;
        _r._size = _r._size * _base + _d;
    }
    if (_end)
        *_end = (char *)_behind;
    return _r;
}
# 7 "headers/inttypes.h" 2
# 95 "headers/inttypes.h"
typedef struct { intmax_t quot, rem; } imaxdiv_t;

static inline intmax_t imaxabs(intmax_t _n) { return _n < 0 ? -_n : _n; }

static inline imaxdiv_t imaxdiv(intmax_t _n, intmax_t _d)
{
    imaxdiv_t _r = {_n / _d, _n % _d};
    return _r;
}

static inline intmax_t strtoimax(const char *_s, char **_end, int _base) { struct _cub_number _r = _cub_number(_s, _end, _base); if (_r._over || _r._size > 0x7ffffffffffffffful + _r._minus) { _cub_errno = 34; return _r._minus ? -0x7fffffffffffffffl - 1 : 0x7fffffffffffffffl; } return _r._minus ? -_r._size : _r._size; }
static inline uintmax_t strtoumax(const char *_s, char **_end, int _base) { struct _cub_number _r = _cub_number(_s, _end, _base); if (_r._over) { _cub_errno = 34; return 0xfffffffffffffffful; } return _r._minus ? -_r._size : _r._size; }
# 2 "7.8.2.1p2_imaxabs_of_the_least.c" 2
int main(void)
{
    return imaxabs((-9223372036854775807L-1L)) < 0;
}

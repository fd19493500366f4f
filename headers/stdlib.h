/* 7.22, in part */
#ifndef _CUB_STDLIB_H
#define _CUB_STDLIB_H

#include <_cub_base.h>
#include <_cub_number.h>

#ifndef _CUB_WCHAR_T
#define _CUB_WCHAR_T
typedef int wchar_t;
#endif

#define EXIT_SUCCESS 0
#define EXIT_FAILURE 1
#define RAND_MAX 2147483647
#define MB_CUR_MAX 1ul

typedef struct { int quot, rem; } div_t;
typedef struct { long quot, rem; } ldiv_t;
typedef struct { long long quot, rem; } lldiv_t;

void *malloc(size_t);
void *calloc(size_t, size_t);
void *realloc(void *, size_t);
void free(void *);
void exit(int);
void abort(void);

void *memcpy(void *, const void *, size_t);
void *memmove(void *, const void *, size_t);
int memcmp(const void *, const void *, size_t);

/* 7.22.1.2: a result that has no value of its type overflows (7.22.1p1). */
static inline long atol(const char *_s)
{
    long _n = 0;
    _Bool _minus = 0;
    while (*_s == ' ' || (*_s >= '\t' && *_s <= '\r'))
        _s++;
    if (*_s == '-' || *_s == '+')
        _minus = *_s++ == '-';
    while (*_s >= '0' && *_s <= '9')
        _n = _n * 10 - (*_s++ - '0');
    return _minus ? _n : -_n;
}

static inline long long atoll(const char *_s) { return atol(_s); }

static inline int atoi(const char *_s)
{
    int _n = 0;
    _Bool _minus = 0;
    while (*_s == ' ' || (*_s >= '\t' && *_s <= '\r'))
        _s++;
    if (*_s == '-' || *_s == '+')
        _minus = *_s++ == '-';
    while (*_s >= '0' && *_s <= '9')
        _n = _n * 10 - (*_s++ - '0');
    return _minus ? _n : -_n;
}

/* 7.22.1.4 */
_CUB_SIGNED(strtol, long)
_CUB_SIGNED(strtoll, long long)
_CUB_UNSIGNED(strtoul, unsigned long)
_CUB_UNSIGNED(strtoull, unsigned long long)

/* 7.22.2: the numbers that the GNU library gives. An element is the sum of the 3rd and the 31st before it; these are the last 31, where rand wasn't
   called and srand wasn't or was called with 1. */
static unsigned _cub_random[31] = {
    2568305073u, 379960547u, 1735697613u, 1040273694u, 1313901226u, 1627687941u, 4115662359u, 2221633813u,
    1780058412u, 2305464239u, 3678992694u, 344556628u, 939512070u, 3045851036u, 1507946756u, 3482421833u,
    154635395u, 1388815473u, 2368290473u, 525320961u, 3285938622u, 968117788u, 4171517689u, 1284210865u,
    435012392u, 2277460957u, 3383902437u, 3924708123u, 1132637927u, 1398500161u, 4089365978u,
};
static int _cub_random_at = 3;

static inline int rand(void)
{
    int _at = _cub_random_at;
    _cub_random_at = _at == 30 ? 0 : _at + 1;
    return (int)((_cub_random[_at] += _cub_random[_at < 3 ? _at + 28 : _at - 3]) >> 1);
}

static inline void srand(unsigned _seed)
{
    long _n = (int)(_seed ? _seed : 1);
    int _i;
    _cub_random[0] = _n;
    for (_i = 1; _i < 31; _i++) {
        _n = 16807 * _n % 2147483647;
        if (_n < 0)
            _n += 2147483647;
        _cub_random[_i] = _n;
    }
    _cub_random_at = 3;
    for (_i = 0; _i < 310; _i++)
        rand();
}

/* 7.22.4.5, 7.22.4.6 */
static inline void _Exit(int _status) { exit(_status); }

/* The environment is empty (own). */
static inline char *getenv(const char *_name)
{
    if (!_name)
        memcpy(0, 0, 0);
    return NULL;
}

/* 7.22.5.1. A call of memcmp for no bytes looks at its pointers (7.22.5p1). */
static inline void *bsearch(const void *_key, const void *_base, size_t _n, size_t _size, int (*_compare)(const void *, const void *))
{
    const char *_from = _base, *_middle;
    int _c;
    memcmp(_key, _base, 0);
    while (_n > 0) {
        _middle = _from + _n / 2 * _size;
        _c = _compare(_key, _middle);
        if (_c == 0)
            return (void *)_middle;
        if (_c > 0) {
            _from = _middle + _size;
            _n--;
        }
        _n /= 2;
    }
    return NULL;
}

/* 7.22.5.2: by merging, with room for all elements. Equal elements keep their order. */
static inline void _cub_sort(char *_a, size_t _n, size_t _size, char *_room, int (*_compare)(const void *, const void *))
{
    char *_left = _a, *_middle = _a + _n / 2 * _size, *_right = _middle, *_end = _a + _n * _size, *_to = _room;
    if (_n / 2 > 1)
        _cub_sort(_a, _n / 2, _size, _room, _compare);
    if (_n - _n / 2 > 1)
        _cub_sort(_middle, _n - _n / 2, _size, _room, _compare);
    while (_left != _middle && _right != _end) {
        if (_compare(_left, _right) <= 0) {
            memcpy(_to, _left, _size);
            _left += _size;
        } else {
            memcpy(_to, _right, _size);
            _right += _size;
        }
        _to += _size;
    }
    memmove(_right - (_middle - _left), _left, _middle - _left);
    memcpy(_a, _room, _to - _room);
}

static inline void qsort(void *_base, size_t _n, size_t _size, int (*_compare)(const void *, const void *))
{
    char *_room;
    memcmp(_base, _base, 0);
    if (_n < 2 || _size == 0)
        return;
    (void)((char *)_base + _n * _size);
    _room = malloc(_n * _size);
    if (!_room) {
        int printf(const char *, ...), _none;
        printf("%n", &_none);
    }
    _cub_sort(_base, _n, _size, _room, _compare);
    free(_room);
}

/* 7.22.6 */
static inline int abs(int _n) { return _n < 0 ? -_n : _n; }
static inline long labs(long _n) { return _n < 0 ? -_n : _n; }
static inline long long llabs(long long _n) { return _n < 0 ? -_n : _n; }

static inline div_t div(int _n, int _d)
{
    div_t _r = {_n / _d, _n % _d};
    return _r;
}

static inline ldiv_t ldiv(long _n, long _d)
{
    ldiv_t _r = {_n / _d, _n % _d};
    return _r;
}

static inline lldiv_t lldiv(long long _n, long long _d)
{
    lldiv_t _r = {_n / _d, _n % _d};
    return _r;
}

#endif

# 0 "ending.c"
# 0 "<built-in>"
# 0 "<command-line>"
# 1 "ending.c"
# 1 "headers/stdlib.h" 1




# 1 "headers/_cub_base.h" 1




typedef unsigned long size_t;
# 6 "headers/stdlib.h" 2
# 1 "headers/_cub_number.h" 1





# 1 "headers/_cub_errno.h" 1




static int _cub_errno;
# 7 "headers/_cub_number.h" 2


struct _cub_number { unsigned long _size; _Bool _minus, _over; };

static inline struct _cub_number _cub_number(const char *_s, char **_end, int _base)
{
    struct _cub_number _r = {0, 0, 0};
    const char *_behind = _s;
    int _d;
    void *memcpy(void *, const void *, size_t);
    if (_base < 0 || _base == 1 || _base > 36)
        memcpy(0, 0, 0);
    while (*_s == ' ' || (*_s >= '\t' && *_s <= '\r'))
        _s++;
    if (*_s == '-' || *_s == '+')
        _r._minus = *_s++ == '-';
    if (*_s == '0' && (_base == 0 || _base == 16) && (_s[1] == 'x' || _s[1] == 'X')) {
        _behind = ++_s;
        _s++;
        _base = 16;
    }
    if (_base == 0)
        _base = *_s == '0' ? 8 : 10;
    for (;; _behind = ++_s) {
        _d = *_s >= '0' && *_s <= '9' ? *_s - '0' : *_s >= 'a' && *_s <= 'z' ? *_s - 'a' + 10 : *_s >= 'A' && *_s <= 'Z' ? *_s - 'A' + 10 : 36;
        if (_d >= _base)
            break;
        if (_r._size >> 58 && _r._size > (0xfffffffffffffffful - _d) / _base)
            _r._over = 1;
        _r._size = _r._size * _base + _d;
    }
    if (_end)
        *_end = (char *)_behind;
    return _r;
}
# 7 "headers/stdlib.h" 2



typedef int wchar_t;







typedef struct { int quot, rem; } div_t;
typedef struct { long quot, rem; } ldiv_t;
typedef struct { long long quot, rem; } lldiv_t;

void *malloc(size_t);
void *calloc(size_t, size_t);
void *realloc(void *, size_t);
void free(void *);
void exit(int);
void abort(void);

void *memcpy(void *, const void *, size_t);
void *memmove(void *, const void *, size_t);
int memcmp(const void *, const void *, size_t);


static inline long atol(const char *_s)
{
    long _n = 0;
    _Bool _minus = 0;
    while (*_s == ' ' || (*_s >= '\t' && *_s <= '\r'))
        _s++;
    if (*_s == '-' || *_s == '+')
        _minus = *_s++ == '-';
    while (*_s >= '0' && *_s <= '9')
        _n = _n * 10 - (*_s++ - '0');
    return _minus ? _n : -_n;
}

static inline long long atoll(const char *_s) { return atol(_s); }

static inline int atoi(const char *_s)
{
    int _n = 0;
    _Bool _minus = 0;
    while (*_s == ' ' || (*_s >= '\t' && *_s <= '\r'))
        _s++;
    if (*_s == '-' || *_s == '+')
        _minus = *_s++ == '-';
    while (*_s >= '0' && *_s <= '9')
        _n = _n * 10 - (*_s++ - '0');
    return _minus ? _n : -_n;
}


static inline long strtol(const char *_s, char **_end, int _base) { struct _cub_number _r = _cub_number(_s, _end, _base); if (_r._over || _r._size > 0x7ffffffffffffffful + _r._minus) { _cub_errno = 34; return _r._minus ? -0x7fffffffffffffffl - 1 : 0x7fffffffffffffffl; } return _r._minus ? -_r._size : _r._size; }
static inline long long strtoll(const char *_s, char **_end, int _base) { struct _cub_number _r = _cub_number(_s, _end, _base); if (_r._over || _r._size > 0x7ffffffffffffffful + _r._minus) { _cub_errno = 34; return _r._minus ? -0x7fffffffffffffffl - 1 : 0x7fffffffffffffffl; } return _r._minus ? -_r._size : _r._size; }
static inline unsigned long strtoul(const char *_s, char **_end, int _base) { struct _cub_number _r = _cub_number(_s, _end, _base); if (_r._over) { _cub_errno = 34; return 0xfffffffffffffffful; } return _r._minus ? -_r._size : _r._size; }
static inline unsigned long long strtoull(const char *_s, char **_end, int _base) { struct _cub_number _r = _cub_number(_s, _end, _base); if (_r._over) { _cub_errno = 34; return 0xfffffffffffffffful; } return _r._minus ? -_r._size : _r._size; }



static unsigned _cub_random[31] = {
    2568305073u, 379960547u, 1735697613u, 1040273694u, 1313901226u, 1627687941u, 4115662359u, 2221633813u,
    1780058412u, 2305464239u, 3678992694u, 344556628u, 939512070u, 3045851036u, 1507946756u, 3482421833u,
    154635395u, 1388815473u, 2368290473u, 525320961u, 3285938622u, 968117788u, 4171517689u, 1284210865u,
    435012392u, 2277460957u, 3383902437u, 3924708123u, 1132637927u, 1398500161u, 4089365978u,
};
static int _cub_random_at = 3;

static inline int rand(void)
{
    int _at = _cub_random_at;
    _cub_random_at = _at == 30 ? 0 : _at + 1;
    return (int)((_cub_random[_at] += _cub_random[_at < 3 ? _at + 28 : _at - 3]) >> 1);
}

static inline void srand(unsigned _seed)
{
    long _n = (int)(_seed ? _seed : 1);
    int _i;
    _cub_random[0] = _n;
    for (_i = 1; _i < 31; _i++) {
        _n = 16807 * _n % 2147483647;
        if (_n < 0)
            _n += 2147483647;
        _cub_random[_i] = _n;
    }
    _cub_random_at = 3;
    for (_i = 0; _i < 310; _i++)
        rand();
}


static inline void _Exit(int _status) { exit(_status); }


static inline char *getenv(const char *_name)
{
    if (!_name)
        memcpy(0, 0, 0);
    return ((void*)0);
}


static inline void *bsearch(const void *_key, const void *_base, size_t _n, size_t _size, int (*_compare)(const void *, const void *))
{
    const char *_from = _base, *_middle;
    int _c;
    memcmp(_key, _base, 0);
    while (_n > 0) {
        _middle = _from + _n / 2 * _size;
        _c = _compare(_key, _middle);
        if (_c == 0)
            return (void *)_middle;
        if (_c > 0) {
            _from = _middle + _size;
            _n--;
        }
        _n /= 2;
    }
    return ((void*)0);
}


static inline void _cub_sort(char *_a, size_t _n, size_t _size, char *_room, int (*_compare)(const void *, const void *))
{
    char *_left = _a, *_middle = _a + _n / 2 * _size, *_right = _middle, *_end = _a + _n * _size, *_to = _room;
    if (_n / 2 > 1)
        _cub_sort(_a, _n / 2, _size, _room, _compare);
    if (_n - _n / 2 > 1)
        _cub_sort(_middle, _n - _n / 2, _size, _room, _compare);
    while (_left != _middle && _right != _end) {
        if (_compare(_left, _right) <= 0) {
            memcpy(_to, _left, _size);
            _left += _size;
        } else {
            memcpy(_to, _right, _size);
            _right += _size;
        }
        _to += _size;
    }
    memmove(_right - (_middle - _left), _left, _middle - _left);
    memcpy(_a, _room, _to - _room);
}

static inline void qsort(void *_base, size_t _n, size_t _size, int (*_compare)(const void *, const void *))
{
    char *_room;
    memcmp(_base, _base, 0);
    if (_n < 2 || _size == 0)
        return;
    (void)((char *)_base + _n * _size);
    _room = malloc(_n * _size);
    if (!_room) {
        int printf(const char *, ...), _none;
        printf("%n", &_none);
    }
    _cub_sort(_base, _n, _size, _room, _compare);
    free(_room);
}


static inline int abs(int _n) { return _n < 0 ? -_n : _n; }
static inline long labs(long _n) { return _n < 0 ? -_n : _n; }
static inline long long llabs(long long _n) { return _n < 0 ? -_n : _n; }

static inline div_t div(int _n, int _d)
{
    div_t _r = {_n / _d, _n % _d};
    return _r;
}

static inline ldiv_t ldiv(long _n, long _d)
{
    ldiv_t _r = {_n / _d, _n % _d};
    return _r;
}

static inline lldiv_t lldiv(long long _n, long long _d)
{
    lldiv_t _r = {_n / _d, _n % _d};
    return _r;
}
# 2 "ending.c" 2
static int checked(int n)
{
    if (n < 0)
        exit(2);
    return n;
}
int main(void)
{
    int sum = 5;
    int all = sum + checked(-1);
    return all;
}

# 0 "typed.c"
# 0 "<built-in>"
# 0 "<command-line>"
# 1 "typed.c"
# 1 "headers/stdlib.h" 1




# 1 "headers/_cub_base.h" 1




typedef unsigned long size_t;
# 6 "headers/stdlib.h" 2
# 1 "headers/_cub_number.h" 1





# 1 "headers/_cub_errno.h" 1




static int _cub_errno;
# 7 "headers/_cub_number.h" 2


struct _cub_number { unsigned long _size; _Bool _minus, _over; };

static inline struct _cub_number _cub_number(const char *_s, char **_end, int _base)
{
    struct _cub_number _r = {0, 0, 0};
    const char *_behind = _s;
    int _d;
    void *memcpy(void *, const void *, size_t);
    if (_base < 0 || _base == 1 || _base > 36)
        memcpy(0, 0, 0);
    while (*_s == ' ' || (*_s >= '\t' && *_s <= '\r'))
        _s++;
    if (*_s == '-' || *_s == '+')
        _r._minus = *_s++ == '-';
    if (*_s == '0' && (_base == 0 || _base == 16) && (_s[1] == 'x' || _s[1] == 'X')) {
        _behind = ++_s;
        _s++;
        _base = 16;
    }
    if (_base == 0)
        _base = *_s == '0' ? 8 : 10;
    for (;; _behind = ++_s) {
        _d = *_s >= '0' && *_s <= '9' ? *_s - '0' : *_s >= 'a' && *_s <= 'z' ? *_s - 'a' + 10 : *_s >= 'A' && *_s <= 'Z' ? *_s - 'A' + 10 : 36;
        if (_d >= _base)
            break;
        if (_r._size >> 58 && _r._size > (0xfffffffffffffffful - _d) / _base)
            _r._over = 1;
        _r._size = _r._size * _base + _d;
    }
    if (_end)
        *_end = (char *)_behind;
    return _r;
}
# 7 "headers/stdlib.h" 2



typedef int wchar_t;







typedef struct { int quot, rem; } div_t;
typedef struct { long quot, rem; } ldiv_t;
typedef struct { long long quot, rem; } lldiv_t;

void *malloc(size_t);
void *calloc(size_t, size_t);
void *realloc(void *, size_t);
void free(void *);
void exit(int);
void abort(void);

void *memcpy(void *, const void *, size_t);
void *memmove(void *, const void *, size_t);
int memcmp(const void *, const void *, size_t);


static inline long atol(const char *_s)
{
    long _n = 0;
    _Bool _minus = 0;
    while (*_s == ' ' || (*_s >= '\t' && *_s <= '\r'))
        _s++;
    if (*_s == '-' || *_s == '+')
        _minus = *_s++ == '-';
    while (*_s >= '0' && *_s <= '9')
        _n = _n * 10 - (*_s++ - '0');
    return _minus ? _n : -_n;
}

static inline long long atoll(const char *_s) { return atol(_s); }

static inline int atoi(const char *_s)
{
    int _n = 0;
    _Bool _minus = 0;
    while (*_s == ' ' || (*_s >= '\t' && *_s <= '\r'))
        _s++;
    if (*_s == '-' || *_s == '+')
        _minus = *_s++ == '-';
    while (*_s >= '0' && *_s <= '9')
        _n = _n * 10 - (*_s++ - '0');
    return _minus ? _n : -_n;
}


static inline long strtol(const char *_s, char **_end, int _base) { struct _cub_number _r = _cub_number(_s, _end, _base); if (_r._over || _r._size > 0x7ffffffffffffffful + _r._minus) { _cub_errno = 34; return _r._minus ? -0x7fffffffffffffffl - 1 : 0x7fffffffffffffffl; } return _r._minus ? -_r._size : _r._size; }
static inline long long strtoll(const char *_s, char **_end, int _base) { struct _cub_number _r = _cub_number(_s, _end, _base); if (_r._over || _r._size > 0x7ffffffffffffffful + _r._minus) { _cub_errno = 34; return _r._minus ? -0x7fffffffffffffffl - 1 : 0x7fffffffffffffffl; } return _r._minus ? -_r._size : _r._size; }
static inline unsigned long strtoul(const char *_s, char **_end, int _base) { struct _cub_number _r = _cub_number(_s, _end, _base); if (_r._over) { _cub_errno = 34; return 0xfffffffffffffffful; } return _r._minus ? -_r._size : _r._size; }
static inline unsigned long long strtoull(const char *_s, char **_end, int _base) { struct _cub_number _r = _cub_number(_s, _end, _base); if (_r._over) { _cub_errno = 34; return 0xfffffffffffffffful; } return _r._minus ? -_r._size : _r._size; }



static unsigned _cub_random[31] = {
    2568305073u, 379960547u, 1735697613u, 1040273694u, 1313901226u, 1627687941u, 4115662359u, 2221633813u,
    1780058412u, 2305464239u, 3678992694u, 344556628u, 939512070u, 3045851036u, 1507946756u, 3482421833u,
    154635395u, 1388815473u, 2368290473u, 525320961u, 3285938622u, 968117788u, 4171517689u, 1284210865u,
    435012392u, 2277460957u, 3383902437u, 3924708123u, 1132637927u, 1398500161u, 4089365978u,
};
static int _cub_random_at = 3;

static inline int rand(void)
{
    int _at = _cub_random_at;
    _cub_random_at = _at == 30 ? 0 : _at + 1;
    return (int)((_cub_random[_at] += _cub_random[_at < 3 ? _at + 28 : _at - 3]) >> 1);
}

static inline void srand(unsigned _seed)
{
    long _n = (int)(_seed ? _seed : 1);
    int _i;
    _cub_random[0] = _n;
    for (_i = 1; _i < 31; _i++) {
        _n = 16807 * _n % 2147483647;
        if (_n < 0)
            _n += 2147483647;
        _cub_random[_i] = _n;
    }
    _cub_random_at = 3;
    for (_i = 0; _i < 310; _i++)
        rand();
}


static inline void _Exit(int _status) { exit(_status); }


static inline char *getenv(const char *_name)
{
    if (!_name)
        memcpy(0, 0, 0);
    return ((void*)0);
}


static inline void *bsearch(const void *_key, const void *_base, size_t _n, size_t _size, int (*_compare)(const void *, const void *))
{
    const char *_from = _base, *_middle;
    int _c;
    memcmp(_key, _base, 0);
    while (_n > 0) {
        _middle = _from + _n / 2 * _size;
        _c = _compare(_key, _middle);
        if (_c == 0)
            return (void *)_middle;
        if (_c > 0) {
            _from = _middle + _size;
            _n--;
        }
        _n /= 2;
    }
    return ((void*)0);
}


static inline void _cub_sort(char *_a, size_t _n, size_t _size, char *_room, int (*_compare)(const void *, const void *))
{
    char *_left = _a, *_middle = _a + _n / 2 * _size, *_right = _middle, *_end = _a + _n * _size, *_to = _room;
    if (_n / 2 > 1)
        _cub_sort(_a, _n / 2, _size, _room, _compare);
    if (_n - _n / 2 > 1)
        _cub_sort(_middle, _n - _n / 2, _size, _room, _compare);
    while (_left != _middle && _right != _end) {
        if (_compare(_left, _right) <= 0) {
            memcpy(_to, _left, _size);
            _left += _size;
        } else {
            memcpy(_to, _right, _size);
            _right += _size;
        }
        _to += _size;
    }
    memmove(_right - (_middle - _left), _left, _middle - _left);
    memcpy(_a, _room, _to - _room);
}

static inline void qsort(void *_base, size_t _n, size_t _size, int (*_compare)(const void *, const void *))
{
    char *_room;
    memcmp(_base, _base, 0);
    if (_n < 2 || _size == 0)
        return;
    (void)((char *)_base + _n * _size);
    _room = malloc(_n * _size);
    if (!_room) {
        int printf(const char *, ...), _none;
        printf("%n", &_none);
    }
    _cub_sort(_base, _n, _size, _room, _compare);
    free(_room);
}


static inline int abs(int _n) { return _n < 0 ? -_n : _n; }
static inline long labs(long _n) { return _n < 0 ? -_n : _n; }
static inline long long llabs(long long _n) { return _n < 0 ? -_n : _n; }

static inline div_t div(int _n, int _d)
{
    div_t _r = {_n / _d, _n % _d};
    return _r;
}

static inline ldiv_t ldiv(long _n, long _d)
{
    ldiv_t _r = {_n / _d, _n % _d};
    return _r;
}

static inline lldiv_t lldiv(long long _n, long long _d)
{
    lldiv_t _r = {_n / _d, _n % _d};
    return _r;
}
# 2 "typed.c" 2
# 1 "headers/stdint.h" 1




typedef signed char int8_t;
typedef short int16_t;
typedef int int32_t;
typedef long int64_t;
typedef unsigned char uint8_t;
typedef unsigned short uint16_t;
typedef unsigned int uint32_t;
typedef unsigned long uint64_t;

typedef signed char int_least8_t;
typedef short int_least16_t;
typedef int int_least32_t;
typedef long int_least64_t;
typedef unsigned char uint_least8_t;
typedef unsigned short uint_least16_t;
typedef unsigned int uint_least32_t;
typedef unsigned long uint_least64_t;

typedef signed char int_fast8_t;
typedef long int_fast16_t;
typedef long int_fast32_t;
typedef long int_fast64_t;
typedef unsigned char uint_fast8_t;
typedef unsigned long uint_fast16_t;
typedef unsigned long uint_fast32_t;
typedef unsigned long uint_fast64_t;

typedef long intptr_t;
typedef unsigned long uintptr_t;
typedef long intmax_t;
typedef unsigned long uintmax_t;
# 3 "typed.c" 2
# 1 "headers/string.h" 1






void *memcpy(void *, const void *, size_t);
void *memmove(void *, const void *, size_t);
void *memset(void *, int, size_t);
int memcmp(const void *, const void *, size_t);
size_t strlen(const char *);
char *strcpy(char *, const char *);
int strcmp(const char *, const char *);
char *strchr(const char *, int);




static inline char *strncpy(char *_d, const char *_s, size_t _n)
{
    size_t _k = 0;
    memcmp(_d, _s, 0);
    while (_k < _n && _s[_k])
        _k++;
    memcpy(_d, _s, _k < _n ? _k + 1 : _k);
    memset(_d + _k, 0, _n - _k);
    return _d;
}


static inline char *strcat(char *_d, const char *_s)
{
    strcpy(_d + strlen(_d), _s);
    return _d;
}


static inline char *strncat(char *_d, const char *_s, size_t _n)
{
    char *_end = _d + strlen(_d);
    size_t _k = 0;
    memcmp(_s, _s, 0);
    while (_k < _n && _s[_k])
        _k++;
    memcpy(_end, _s, _k < _n ? _k + 1 : _k);
    _end[_k] = 0;
    return _d;
}


static inline int strcoll(const char *_a, const char *_b) { return strcmp(_a, _b); }

static inline size_t strxfrm(char *_d, const char *_s, size_t _n)
{
    size_t _k = strlen(_s), _i;
    char _none;
    if (_n)
        memcpy(_d, _s, _k < _n ? _k + 1 : _n);
    for (_i = 0; _k >= _n && _i < _n; _i++)
        memcpy(_d + _i, &_none, 1);
    return _k;
}


static inline int strncmp(const char *_a, const char *_b, size_t _n)
{
    memcmp(_a, _b, 0);
    while (_n && *_a == *_b && *_a)
        _a++, _b++, _n--;
    return _n == 0 || *_a == *_b ? 0 : (unsigned char)*_a < (unsigned char)*_b ? -1 : 1;
}


static inline void *memchr(const void *_s, int _c, size_t _n)
{
    const unsigned char *_p = _s;
    memcmp(_s, _s, 0);
    for (; _n; _p++, _n--)
        if (*_p == (unsigned char)_c)
            return (void *)_p;
    return ((void*)0);
}


static inline char *strrchr(const char *_s, int _c)
{
    size_t _n = strlen(_s) + 1;
    while (_n--)
        if (_s[_n] == (char)_c)
            return (char *)_s + _n;
    return ((void*)0);
}


static inline size_t strspn(const char *_s, const char *_set)
{
    size_t _n = 0;
    strlen(_s), strlen(_set);
    while (_s[_n] && strchr(_set, _s[_n]))
        _n++;
    return _n;
}


static inline size_t strcspn(const char *_s, const char *_set)
{
    size_t _n = 0;
    strlen(_s), strlen(_set);
    while (!strchr(_set, _s[_n]))
        _n++;
    return _n;
}


static inline char *strpbrk(const char *_s, const char *_set)
{
    _s += strcspn(_s, _set);
    return *_s ? (char *)_s : ((void*)0);
}


static inline char *strstr(const char *_s, const char *_word)
{
    size_t _n = strlen(_word);
    const char *_end = _s + strlen(_s);
    while (_s && (size_t)(_end - _s) >= _n) {
        if (memcmp(_s, _word, _n) == 0)
            return (char *)_s;
        _s = strchr(_s + 1, *_word);
    }
    return ((void*)0);
}


static char *_cub_token;

static inline char *strtok(char *_s, const char *_set)
{
    if (!_s)
        _s = _cub_token;
    _s += strspn(_s, _set);
    _cub_token = _s + strcspn(_s, _set);
    if (_s == _cub_token)
        return ((void*)0);
    if (*_cub_token)
        *_cub_token++ = 0;
    return _s;
}


static inline char *strerror(int _n)
{
    switch (_n) {
    case 0:
        return "Success";
    case 33:
        return "Numerical argument out of domain";
    case 34:
        return "Numerical result out of range";
    case 84:
        return "Invalid or incomplete multibyte or wide character";
    default:
        return "Unknown error";
    }
}
# 4 "typed.c" 2
static uint32_t checksum(const void *data, size_t n)
{
    const uint32_t *w = data;
    uint32_t s = 0;
    for (size_t i = 0; i < n / 4; i++)
        s += w[i];
    return s;
}
int main(void)
{
    uint16_t *buf = malloc(4 * sizeof *buf);
    if (!buf) return 1;
    for (int i = 0; i < 4; i++)
        buf[i] = (uint16_t)(i + 1);
    uint32_t s = checksum(buf, 4 * sizeof *buf);
    free(buf);
    return s == 0;
}

# 0 "freed.c"
# 0 "<built-in>"
# 0 "<command-line>"
# 1 "freed.c"
# 1 "headers/stdio.h" 1




# 1 "headers/_cub_base.h" 1




typedef unsigned long size_t;
# 6 "headers/stdio.h" 2




int getchar(void);
int putchar(int);
int puts(const char *);
int printf(const char *, ...);


typedef struct _cub_file { int _back, _last, _wrong; } FILE;

static FILE _cub_stdin, _cub_stdout;





static inline int _cub_other(FILE *_stream, FILE *_other)
{
    if (_stream != _other)
        puts(0);
    _other->_wrong = 1;
    return (-1);
}


static inline int _cub_getchar(void)
{
    if (!_cub_stdin._back)
        return _cub_stdin._last = getchar();
    _cub_stdin._last = _cub_stdin._back - 1;
    _cub_stdin._back = 0;
    return _cub_stdin._last;
}


static inline int fgetc(FILE *_stream) { return _stream == (&_cub_stdin) ? _cub_getchar() : _cub_other(_stream, (&_cub_stdout)); }
static inline int getc(FILE *_stream) { return _stream == (&_cub_stdin) ? _cub_getchar() : _cub_other(_stream, (&_cub_stdout)); }


static inline int ungetc(int _c, FILE *_stream)
{
    if (_stream != (&_cub_stdin))
        return _cub_other(_stream, (&_cub_stdout));
    if (_c == (-1) || _cub_stdin._back)
        return (-1);
    _cub_stdin._last = (unsigned char)_c;
    _cub_stdin._back = _cub_stdin._last + 1;
    return _cub_stdin._last;
}


static inline char *fgets(char *_s, int _n, FILE *_stream)
{
    char *_at = _s;
    int _c = 0;
    if (!_s || _n <= 0)
        puts(0);
    if (_stream != (&_cub_stdin)) {
        _cub_other(_stream, (&_cub_stdout));
        return ((void*)0);
    }
    if (_n > 1) {
        while (_n > 1 && _c != '\n' && (_c = _cub_stdin._back ? _cub_getchar() : getchar()) >= 0)
            *_at++ = _c, _n--;
        _cub_stdin._last = _c;
    }
    if (_c < 0 && _at == _s)
        return ((void*)0);
    *_at = 0;
    return _s;
}


static inline int fputc(int _c, FILE *_stream) { return _stream == (&_cub_stdout) ? putchar(_c) : _cub_other(_stream, (&_cub_stdin)); }
static inline int putc(int _c, FILE *_stream) { return _stream == (&_cub_stdout) ? putchar(_c) : _cub_other(_stream, (&_cub_stdin)); }


static inline int fputs(const char *_s, FILE *_stream)
{
    if (_stream != (&_cub_stdout))
        return _cub_other(_stream, (&_cub_stdin));
    while (printf("%.4095s", _s) == 4095)
        _s += 4095;
    return 1;
}


static inline void _cub_unwrite(unsigned char *_p, size_t _n)
{
    void *memcpy(void *, const void *, size_t);
    unsigned char _none;
    while (_n--)
        memcpy(_p++, &_none, 1);
}

static inline size_t fread(void *_p, size_t _size, size_t _n, FILE *_stream)
{
    unsigned char *_byte = _p;
    size_t _i, _j;
    int _c;
    if (!_p)
        puts(0);
    if (_stream != (&_cub_stdin)) {
        _cub_other(_stream, (&_cub_stdout));
        return 0;
    }
    for (_i = 0; _size && _i < _n; _i++)
        for (_j = 0; _j < _size; _j++) {
            if ((_c = _cub_getchar()) == (-1)) {
                if (_j > 0)
                    _cub_unwrite(_byte - _j, _size);
                return _i;
            }
            *_byte++ = _c;
        }
    return _i;
}


static inline size_t fwrite(const void *_p, size_t _size, size_t _n, FILE *_stream)
{
    const unsigned char *_byte = _p;
    size_t _i, _j;
    if (!_p)
        puts(0);
    if (_stream != (&_cub_stdout)) {
        _cub_other(_stream, (&_cub_stdin));
        return 0;
    }
    for (_i = 0; _size && _i < _n; _i++)
        for (_j = 0; _j < _size; _j++)
            putchar(*_byte++);
    return _i;
}


static inline int fflush(FILE *_stream)
{
    if (_stream && _stream != (&_cub_stdout))
        puts(0);
    return 0;
}


static inline int feof(FILE *_stream) { return _stream->_last == (-1); }
static inline int ferror(FILE *_stream) { return _stream->_wrong; }

static inline void clearerr(FILE *_stream)
{
    _stream->_last = 0;
    _stream->_wrong = 0;
}


static inline FILE *fopen(const char *_name, const char *_mode)
{
    if (!_name || !_mode)
        puts(0);
    return ((void*)0);
}


static inline int fclose(FILE *_stream)
{
    int _none;
    if (_stream != (&_cub_stdin) && _stream != (&_cub_stdout))
        puts(0);
    printf("%n", &_none);
    return 0;
}
# 2 "freed.c" 2
# 1 "headers/stdlib.h" 1





# 1 "headers/_cub_number.h" 1





# 1 "headers/_cub_errno.h" 1




static int _cub_errno;
# 7 "headers/_cub_number.h" 2


struct _cub_number { unsigned long _size; _Bool _minus, _over; };

static inline struct _cub_number _cub_number(const char *_s, char **_end, int _base)
{
    struct _cub_number _r = {0, 0, 0};
    const char *_behind = _s;
    int _d;
    void *memcpy(void *, const void *, size_t);
    if (_base < 0 || _base == 1 || _base > 36)
        memcpy(0, 0, 0);
    while (*_s == ' ' || (*_s >= '\t' && *_s <= '\r'))
        _s++;
    if (*_s == '-' || *_s == '+')
        _r._minus = *_s++ == '-';
    if (*_s == '0' && (_base == 0 || _base == 16) && (_s[1] == 'x' || _s[1] == 'X')) {
        _behind = ++_s;
        _s++;
        _base = 16;
    }
    if (_base == 0)
        _base = *_s == '0' ? 8 : 10;
    for (;; _behind = ++_s) {
        _d = *_s >= '0' && *_s <= '9' ? *_s - '0' : *_s >= 'a' && *_s <= 'z' ? *_s - 'a' + 10 : *_s >= 'A' && *_s <= 'Z' ? *_s - 'A' + 10 : 36;
        if (_d >= _base)
            break;
        if (_r._size >> 58 && _r._size > (0xfffffffffffffffful - _d) / _base)
            _r._over = 1;
        _r._size = _r._size * _base + _d;
    }
    if (_end)
        *_end = (char *)_behind;
    return _r;
}
# 7 "headers/stdlib.h" 2



typedef int wchar_t;







typedef struct { int quot, rem; } div_t;
typedef struct { long quot, rem; } ldiv_t;
typedef struct { long long quot, rem; } lldiv_t;

void *malloc(size_t);
void *calloc(size_t, size_t);
void *realloc(void *, size_t);
void free(void *);
void exit(int);
void abort(void);

void *memcpy(void *, const void *, size_t);
void *memmove(void *, const void *, size_t);
int memcmp(const void *, const void *, size_t);


static inline long atol(const char *_s)
{
    long _n = 0;
    _Bool _minus = 0;
    while (*_s == ' ' || (*_s >= '\t' && *_s <= '\r'))
        _s++;
    if (*_s == '-' || *_s == '+')
        _minus = *_s++ == '-';
    while (*_s >= '0' && *_s <= '9')
        _n = _n * 10 - (*_s++ - '0');
    return _minus ? _n : -_n;
}

static inline long long atoll(const char *_s) { return atol(_s); }

static inline int atoi(const char *_s)
{
    int _n = 0;
    _Bool _minus = 0;
    while (*_s == ' ' || (*_s >= '\t' && *_s <= '\r'))
        _s++;
    if (*_s == '-' || *_s == '+')
        _minus = *_s++ == '-';
    while (*_s >= '0' && *_s <= '9')
        _n = _n * 10 - (*_s++ - '0');
    return _minus ? _n : -_n;
}


static inline long strtol(const char *_s, char **_end, int _base) { struct _cub_number _r = _cub_number(_s, _end, _base); if (_r._over || _r._size > 0x7ffffffffffffffful + _r._minus) { _cub_errno = 34; return _r._minus ? -0x7fffffffffffffffl - 1 : 0x7fffffffffffffffl; } return _r._minus ? -_r._size : _r._size; }
static inline long long strtoll(const char *_s, char **_end, int _base) { struct _cub_number _r = _cub_number(_s, _end, _base); if (_r._over || _r._size > 0x7ffffffffffffffful + _r._minus) { _cub_errno = 34; return _r._minus ? -0x7fffffffffffffffl - 1 : 0x7fffffffffffffffl; } return _r._minus ? -_r._size : _r._size; }
static inline unsigned long strtoul(const char *_s, char **_end, int _base) { struct _cub_number _r = _cub_number(_s, _end, _base); if (_r._over) { _cub_errno = 34; return 0xfffffffffffffffful; } return _r._minus ? -_r._size : _r._size; }
static inline unsigned long long strtoull(const char *_s, char **_end, int _base) { struct _cub_number _r = _cub_number(_s, _end, _base); if (_r._over) { _cub_errno = 34; return 0xfffffffffffffffful; } return _r._minus ? -_r._size : _r._size; }



static unsigned _cub_random[31] = {
    2568305073u, 379960547u, 1735697613u, 1040273694u, 1313901226u, 1627687941u, 4115662359u, 2221633813u,
    1780058412u, 2305464239u, 3678992694u, 344556628u, 939512070u, 3045851036u, 1507946756u, 3482421833u,
    154635395u, 1388815473u, 2368290473u, 525320961u, 3285938622u, 968117788u, 4171517689u, 1284210865u,
    435012392u, 2277460957u, 3383902437u, 3924708123u, 1132637927u, 1398500161u, 4089365978u,
};
static int _cub_random_at = 3;

static inline int rand(void)
{
    int _at = _cub_random_at;
    _cub_random_at = _at == 30 ? 0 : _at + 1;
    return (int)((_cub_random[_at] += _cub_random[_at < 3 ? _at + 28 : _at - 3]) >> 1);
}

static inline void srand(unsigned _seed)
{
    long _n = (int)(_seed ? _seed : 1);
    int _i;
    _cub_random[0] = _n;
    for (_i = 1; _i < 31; _i++) {
        _n = 16807 * _n % 2147483647;
        if (_n < 0)
            _n += 2147483647;
        _cub_random[_i] = _n;
    }
    _cub_random_at = 3;
    for (_i = 0; _i < 310; _i++)
        rand();
}


static inline void _Exit(int _status) { exit(_status); }


static inline char *getenv(const char *_name)
{
    if (!_name)
        memcpy(0, 0, 0);
    return ((void*)0);
}


static inline void *bsearch(const void *_key, const void *_base, size_t _n, size_t _size, int (*_compare)(const void *, const void *))
{
    const char *_from = _base, *_middle;
    int _c;
    memcmp(_key, _base, 0);
    while (_n > 0) {
        _middle = _from + _n / 2 * _size;
        _c = _compare(_key, _middle);
        if (_c == 0)
            return (void *)_middle;
        if (_c > 0) {
            _from = _middle + _size;
            _n--;
        }
        _n /= 2;
    }
    return ((void*)0);
}


static inline void _cub_sort(char *_a, size_t _n, size_t _size, char *_room, int (*_compare)(const void *, const void *))
{
    char *_left = _a, *_middle = _a + _n / 2 * _size, *_right = _middle, *_end = _a + _n * _size, *_to = _room;
    if (_n / 2 > 1)
        _cub_sort(_a, _n / 2, _size, _room, _compare);
    if (_n - _n / 2 > 1)
        _cub_sort(_middle, _n - _n / 2, _size, _room, _compare);
    while (_left != _middle && _right != _end) {
        if (_compare(_left, _right) <= 0) {
            memcpy(_to, _left, _size);
            _left += _size;
        } else {
            memcpy(_to, _right, _size);
            _right += _size;
        }
        _to += _size;
    }
    memmove(_right - (_middle - _left), _left, _middle - _left);
    memcpy(_a, _room, _to - _room);
}

static inline void qsort(void *_base, size_t _n, size_t _size, int (*_compare)(const void *, const void *))
{
    char *_room;
    memcmp(_base, _base, 0);
    if (_n < 2 || _size == 0)
        return;
    (void)((char *)_base + _n * _size);
    _room = malloc(_n * _size);
    if (!_room) {
        int printf(const char *, ...), _none;
        printf("%n", &_none);
    }
    _cub_sort(_base, _n, _size, _room, _compare);
    free(_room);
}


static inline int abs(int _n) { return _n < 0 ? -_n : _n; }
static inline long labs(long _n) { return _n < 0 ? -_n : _n; }
static inline long long llabs(long long _n) { return _n < 0 ? -_n : _n; }

static inline div_t div(int _n, int _d)
{
    div_t _r = {_n / _d, _n % _d};
    return _r;
}

static inline ldiv_t ldiv(long _n, long _d)
{
    ldiv_t _r = {_n / _d, _n % _d};
    return _r;
}

static inline lldiv_t lldiv(long long _n, long long _d)
{
    lldiv_t _r = {_n / _d, _n % _d};
    return _r;
}
# 3 "freed.c" 2
struct node { int value; struct node *next; };
static struct node *push(struct node *list, int value)
{
 struct node *n = malloc(sizeof *n);
 if (!n) exit(1);
 n->value = value;
 n->next = list;
 return n;
}
static void drop(struct node *list)
{
 for (struct node *n = list; n; n = n->next)
  free(n);
}
int main(void)
{
 struct node *list = push(push(((void*)0), 1), 2);
 printf("%d\n", list->value);
 drop(list);
 return 0;
}

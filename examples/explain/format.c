# 0 "format.c"
# 0 "<built-in>"
# 0 "<command-line>"
# 1 "format.c"
# 1 "headers/stdio.h" 1




# 1 "headers/_cub_base.h" 1




typedef unsigned long size_t;
# 6 "headers/stdio.h" 2




int getchar(void);
int putchar(int);
int puts(const char *);
int printf(const char *, ...);


typedef struct _cub_file { int _back, _last, _wrong; } FILE;

static FILE _cub_stdin, _cub_stdout;





static inline int _cub_other(FILE *_stream, FILE *_other)
{
    if (_stream != _other)
        puts(0);
    _other->_wrong = 1;
    return (-1);
}


static inline int _cub_getchar(void)
{
    if (!_cub_stdin._back)
        return _cub_stdin._last = getchar();
    _cub_stdin._last = _cub_stdin._back - 1;
    _cub_stdin._back = 0;
    return _cub_stdin._last;
}


static inline int fgetc(FILE *_stream) { return _stream == (&_cub_stdin) ? _cub_getchar() : _cub_other(_stream, (&_cub_stdout)); }
static inline int getc(FILE *_stream) { return _stream == (&_cub_stdin) ? _cub_getchar() : _cub_other(_stream, (&_cub_stdout)); }


static inline int ungetc(int _c, FILE *_stream)
{
    if (_stream != (&_cub_stdin))
        return _cub_other(_stream, (&_cub_stdout));
    if (_c == (-1) || _cub_stdin._back)
        return (-1);
    _cub_stdin._last = (unsigned char)_c;
    _cub_stdin._back = _cub_stdin._last + 1;
    return _cub_stdin._last;
}


static inline char *fgets(char *_s, int _n, FILE *_stream)
{
    char *_at = _s;
    int _c = 0;
    if (!_s || _n <= 0)
        puts(0);
    if (_stream != (&_cub_stdin)) {
        _cub_other(_stream, (&_cub_stdout));
        return ((void*)0);
    }
    if (_n > 1) {
        while (_n > 1 && _c != '\n' && (_c = _cub_stdin._back ? _cub_getchar() : getchar()) >= 0)
            *_at++ = _c, _n--;
        _cub_stdin._last = _c;
    }
    if (_c < 0 && _at == _s)
        return ((void*)0);
    *_at = 0;
    return _s;
}


static inline int fputc(int _c, FILE *_stream) { return _stream == (&_cub_stdout) ? putchar(_c) : _cub_other(_stream, (&_cub_stdin)); }
static inline int putc(int _c, FILE *_stream) { return _stream == (&_cub_stdout) ? putchar(_c) : _cub_other(_stream, (&_cub_stdin)); }


static inline int fputs(const char *_s, FILE *_stream)
{
    if (_stream != (&_cub_stdout))
        return _cub_other(_stream, (&_cub_stdin));
    while (printf("%.4095s", _s) == 4095)
        _s += 4095;
    return 1;
}


static inline void _cub_unwrite(unsigned char *_p, size_t _n)
{
    void *memcpy(void *, const void *, size_t);
    unsigned char _none;
    while (_n--)
        memcpy(_p++, &_none, 1);
}

static inline size_t fread(void *_p, size_t _size, size_t _n, FILE *_stream)
{
    unsigned char *_byte = _p;
    size_t _i, _j;
    int _c;
    if (!_p)
        puts(0);
    if (_stream != (&_cub_stdin)) {
        _cub_other(_stream, (&_cub_stdout));
        return 0;
    }
    for (_i = 0; _size && _i < _n; _i++)
        for (_j = 0; _j < _size; _j++) {
            if ((_c = _cub_getchar()) == (-1)) {
                if (_j > 0)
                    _cub_unwrite(_byte - _j, _size);
                return _i;
            }
            *_byte++ = _c;
        }
    return _i;
}


static inline size_t fwrite(const void *_p, size_t _size, size_t _n, FILE *_stream)
{
    const unsigned char *_byte = _p;
    size_t _i, _j;
    if (!_p)
        puts(0);
    if (_stream != (&_cub_stdout)) {
        _cub_other(_stream, (&_cub_stdin));
        return 0;
    }
    for (_i = 0; _size && _i < _n; _i++)
        for (_j = 0; _j < _size; _j++)
            putchar(*_byte++);
    return _i;
}


static inline int fflush(FILE *_stream)
{
    if (_stream && _stream != (&_cub_stdout))
        puts(0);
    return 0;
}


static inline int feof(FILE *_stream) { return _stream->_last == (-1); }
static inline int ferror(FILE *_stream) { return _stream->_wrong; }

static inline void clearerr(FILE *_stream)
{
    _stream->_last = 0;
    _stream->_wrong = 0;
}


static inline FILE *fopen(const char *_name, const char *_mode)
{
    if (!_name || !_mode)
        puts(0);
    return ((void*)0);
}


static inline int fclose(FILE *_stream)
{
    int _none;
    if (_stream != (&_cub_stdin) && _stream != (&_cub_stdout))
        puts(0);
    printf("%n", &_none);
    return 0;
}
# 2 "format.c" 2
# 1 "headers/string.h" 1






void *memcpy(void *, const void *, size_t);
void *memmove(void *, const void *, size_t);
void *memset(void *, int, size_t);
int memcmp(const void *, const void *, size_t);
size_t strlen(const char *);
char *strcpy(char *, const char *);
int strcmp(const char *, const char *);
char *strchr(const char *, int);




static inline char *strncpy(char *_d, const char *_s, size_t _n)
{
    size_t _k = 0;
    memcmp(_d, _s, 0);
    while (_k < _n && _s[_k])
        _k++;
    memcpy(_d, _s, _k < _n ? _k + 1 : _k);
    memset(_d + _k, 0, _n - _k);
    return _d;
}


static inline char *strcat(char *_d, const char *_s)
{
    strcpy(_d + strlen(_d), _s);
    return _d;
}


static inline char *strncat(char *_d, const char *_s, size_t _n)
{
    char *_end = _d + strlen(_d);
    size_t _k = 0;
    memcmp(_s, _s, 0);
    while (_k < _n && _s[_k])
        _k++;
    memcpy(_end, _s, _k < _n ? _k + 1 : _k);
    _end[_k] = 0;
    return _d;
}


static inline int strcoll(const char *_a, const char *_b) { return strcmp(_a, _b); }

static inline size_t strxfrm(char *_d, const char *_s, size_t _n)
{
    size_t _k = strlen(_s), _i;
    char _none;
    if (_n)
        memcpy(_d, _s, _k < _n ? _k + 1 : _n);
    for (_i = 0; _k >= _n && _i < _n; _i++)
        memcpy(_d + _i, &_none, 1);
    return _k;
}


static inline int strncmp(const char *_a, const char *_b, size_t _n)
{
    memcmp(_a, _b, 0);
    while (_n && *_a == *_b && *_a)
        _a++, _b++, _n--;
    return _n == 0 || *_a == *_b ? 0 : (unsigned char)*_a < (unsigned char)*_b ? -1 : 1;
}


static inline void *memchr(const void *_s, int _c, size_t _n)
{
    const unsigned char *_p = _s;
    memcmp(_s, _s, 0);
    for (; _n; _p++, _n--)
        if (*_p == (unsigned char)_c)
            return (void *)_p;
    return ((void*)0);
}


static inline char *strrchr(const char *_s, int _c)
{
    size_t _n = strlen(_s) + 1;
    while (_n--)
        if (_s[_n] == (char)_c)
            return (char *)_s + _n;
    return ((void*)0);
}


static inline size_t strspn(const char *_s, const char *_set)
{
    size_t _n = 0;
    strlen(_s), strlen(_set);
    while (_s[_n] && strchr(_set, _s[_n]))
        _n++;
    return _n;
}


static inline size_t strcspn(const char *_s, const char *_set)
{
    size_t _n = 0;
    strlen(_s), strlen(_set);
    while (!strchr(_set, _s[_n]))
        _n++;
    return _n;
}


static inline char *strpbrk(const char *_s, const char *_set)
{
    _s += strcspn(_s, _set);
    return *_s ? (char *)_s : ((void*)0);
}


static inline char *strstr(const char *_s, const char *_word)
{
    size_t _n = strlen(_word);
    const char *_end = _s + strlen(_s);
    while (_s && (size_t)(_end - _s) >= _n) {
        if (memcmp(_s, _word, _n) == 0)
            return (char *)_s;
        _s = strchr(_s + 1, *_word);
    }
    return ((void*)0);
}


static char *_cub_token;

static inline char *strtok(char *_s, const char *_set)
{
    if (!_s)
        _s = _cub_token;
    _s += strspn(_s, _set);
    _cub_token = _s + strcspn(_s, _set);
    if (_s == _cub_token)
        return ((void*)0);
    if (*_cub_token)
        *_cub_token++ = 0;
    return _s;
}


static inline char *strerror(int _n)
{
    switch (_n) {
    case 0:
        return "Success";
    case 33:
        return "Numerical argument out of domain";
    case 34:
        return "Numerical result out of range";
    case 84:
        return "Invalid or incomplete multibyte or wide character";
    default:
        return "Unknown error";
    }
}
# 3 "format.c" 2
int main(void)
{
    const char *word = "hello";
    printf("%s has %d letters\n", word, strlen(word));
    return 0;
}

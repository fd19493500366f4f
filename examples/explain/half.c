# 0 "half.c"
# 0 "<built-in>"
# 0 "<command-line>"
# 1 "half.c"
# 1 "headers/stdio.h" 1




# 1 "headers/_cub_base.h" 1




typedef unsigned long size_t;
# 6 "headers/stdio.h" 2




int getchar(void);
int putchar(int);
int puts(const char *);
int printf(const char *, ...);


typedef struct _cub_file { int _back, _last, _wrong; } FILE;

static FILE _cub_stdin, _cub_stdout;





static inline int _cub_other(FILE *_stream, FILE *_other)
{
    if (_stream != _other)
        puts(0);
    _other->_wrong = 1;
    return (-1);
}


static inline int _cub_getchar(void)
{
    if (!_cub_stdin._back)
        return _cub_stdin._last = getchar();
    _cub_stdin._last = _cub_stdin._back - 1;
    _cub_stdin._back = 0;
    return _cub_stdin._last;
}


static inline int fgetc(FILE *_stream) { return _stream == (&_cub_stdin) ? _cub_getchar() : _cub_other(_stream, (&_cub_stdout)); }
static inline int getc(FILE *_stream) { return _stream == (&_cub_stdin) ? _cub_getchar() : _cub_other(_stream, (&_cub_stdout)); }


static inline int ungetc(int _c, FILE *_stream)
{
    if (_stream != (&_cub_stdin))
        return _cub_other(_stream, (&_cub_stdout));
    if (_c == (-1) || _cub_stdin._back)
        return (-1);
    _cub_stdin._last = (unsigned char)_c;
    _cub_stdin._back = _cub_stdin._last + 1;
    return _cub_stdin._last;
}


static inline char *fgets(char *_s, int _n, FILE *_stream)
{
    char *_at = _s;
    int _c = 0;
    if (!_s || _n <= 0)
        puts(0);
    if (_stream != (&_cub_stdin)) {
        _cub_other(_stream, (&_cub_stdout));
        return ((void*)0);
    }
    if (_n > 1) {
        while (_n > 1 && _c != '\n' && (_c = _cub_stdin._back ? _cub_getchar() : getchar()) >= 0)
            *_at++ = _c, _n--;
        _cub_stdin._last = _c;
    }
    if (_c < 0 && _at == _s)
        return ((void*)0);
    *_at = 0;
    return _s;
}


static inline int fputc(int _c, FILE *_stream) { return _stream == (&_cub_stdout) ? putchar(_c) : _cub_other(_stream, (&_cub_stdin)); }
static inline int putc(int _c, FILE *_stream) { return _stream == (&_cub_stdout) ? putchar(_c) : _cub_other(_stream, (&_cub_stdin)); }


static inline int fputs(const char *_s, FILE *_stream)
{
    if (_stream != (&_cub_stdout))
        return _cub_other(_stream, (&_cub_stdin));
    while (printf("%.4095s", _s) == 4095)
        _s += 4095;
    return 1;
}


static inline void _cub_unwrite(unsigned char *_p, size_t _n)
{
    void *memcpy(void *, const void *, size_t);
    unsigned char _none;
    while (_n--)
        memcpy(_p++, &_none, 1);
}

static inline size_t fread(void *_p, size_t _size, size_t _n, FILE *_stream)
{
    unsigned char *_byte = _p;
    size_t _i, _j;
    int _c;
    if (!_p)
        puts(0);
    if (_stream != (&_cub_stdin)) {
        _cub_other(_stream, (&_cub_stdout));
        return 0;
    }
    for (_i = 0; _size && _i < _n; _i++)
        for (_j = 0; _j < _size; _j++) {
            if ((_c = _cub_getchar()) == (-1)) {
                if (_j > 0)
                    _cub_unwrite(_byte - _j, _size);
                return _i;
            }
            *_byte++ = _c;
        }
    return _i;
}


static inline size_t fwrite(const void *_p, size_t _size, size_t _n, FILE *_stream)
{
    const unsigned char *_byte = _p;
    size_t _i, _j;
    if (!_p)
        puts(0);
    if (_stream != (&_cub_stdout)) {
        _cub_other(_stream, (&_cub_stdin));
        return 0;
    }
    for (_i = 0; _size && _i < _n; _i++)
        for (_j = 0; _j < _size; _j++)
            putchar(*_byte++);
    return _i;
}


static inline int fflush(FILE *_stream)
{
    if (_stream && _stream != (&_cub_stdout))
        puts(0);
    return 0;
}


static inline int feof(FILE *_stream) { return _stream->_last == (-1); }
static inline int ferror(FILE *_stream) { return _stream->_wrong; }

static inline void clearerr(FILE *_stream)
{
    _stream->_last = 0;
    _stream->_wrong = 0;
}


static inline FILE *fopen(const char *_name, const char *_mode)
{
    if (!_name || !_mode)
        puts(0);
    return ((void*)0);
}


static inline int fclose(FILE *_stream)
{
    int _none;
    if (_stream != (&_cub_stdin) && _stream != (&_cub_stdout))
        puts(0);
    printf("%n", &_none);
    return 0;
}
# 2 "half.c" 2
static int half(int n)
{
    return n * 0.5;
}
int main(void)
{
    printf("%d\n", half(8));
    return 0;
}

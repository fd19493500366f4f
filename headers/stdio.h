/* 7.21, in part: standard input, standard output and standard error. */
#ifndef _CUB_STDIO_H
#define _CUB_STDIO_H

#include <_cub_base.h>
#include <_cub_errno.h>
#include <_cub_error_text.h>

#define EOF (-1)
#define BUFSIZ 1024

int getchar(void);
int putchar(int);
int puts(const char *);
int printf(const char *, ...);
int sprintf(char *, const char *, ...);
int snprintf(char *, size_t, const char *, ...);

/* fprintf to the stream of a number: 1 is standard output, 2 is standard error. */
int _cub_fprintf(int, const char *, ...);

/* _back is 1 more than the byte that was pushed back, or 0; _last is what the last read gave. */
typedef struct _cub_file { int _number, _back, _last, _wrong; } FILE;

static FILE _cub_stdin, _cub_stdout = {1}, _cub_stderr = {2};

#define stdin (&_cub_stdin)
#define stdout (&_cub_stdout)
#define stderr (&_cub_stderr)

/* 7.21.6.1 */
#define fprintf(_stream, ...) _cub_fprintf((_stream)->_number, __VA_ARGS__)

/* The stream isn't one that a function is for: it is another one, or no stream (7.1.4p1). */
static inline int _cub_other(FILE *_stream)
{
    if (_stream != stdin && _stream != stdout && _stream != stderr)
        puts(0);
    _stream->_wrong = 1;
    return EOF;
}

/* 7.21.7.6 */
static inline int _cub_getchar(void)
{
    if (!_cub_stdin._back)
        return _cub_stdin._last = getchar();
    _cub_stdin._last = _cub_stdin._back - 1;
    _cub_stdin._back = 0;
    return _cub_stdin._last;
}

/* 7.21.7.1, 7.21.7.5 */
static inline int fgetc(FILE *_stream) { return _stream == stdin ? _cub_getchar() : _cub_other(_stream); }
static inline int getc(FILE *_stream) { return _stream == stdin ? _cub_getchar() : _cub_other(_stream); }

/* 7.21.7.10: one byte can be pushed back. */
static inline int ungetc(int _c, FILE *_stream)
{
    if (_stream != stdin)
        return _cub_other(_stream);
    if (_c == EOF || _cub_stdin._back)
        return EOF;
    _cub_stdin._last = (unsigned char)_c;
    _cub_stdin._back = _cub_stdin._last + 1;
    return _cub_stdin._last;
}

/* 7.21.7.2: n is at least 1. */
static inline char *fgets(char *_s, int _n, FILE *_stream)
{
    char *_at = _s;
    int _c = 0;
    if (!_s || _n <= 0)
        puts(0);
    if (_stream != stdin) {
        _cub_other(_stream);
        return NULL;
    }
    if (_n > 1) {
        while (_n > 1 && _c != '\n' && (_c = _cub_stdin._back ? _cub_getchar() : getchar()) >= 0)
            *_at++ = _c, _n--;
        _cub_stdin._last = _c;
    }
    if (_c < 0 && _at == _s)
        return NULL;
    *_at = 0;
    return _s;
}

/* 7.21.7.3, 7.21.7.7 */
static inline int fputc(int _c, FILE *_stream)
{
    if (_stream == stdout)
        return putchar(_c);
    if (_stream != stderr)
        return _cub_other(_stream);
    _cub_fprintf(2, "%c", _c);
    return (unsigned char)_c;
}

static inline int putc(int _c, FILE *_stream) { return fputc(_c, _stream); }

/* 7.21.7.4, in pieces that one conversion may have */
static inline int fputs(const char *_s, FILE *_stream)
{
    if (_stream != stdout && _stream != stderr)
        return _cub_other(_stream);
    while (_cub_fprintf(_stream->_number, "%.4095s", _s) == 4095)
        _s += 4095;
    return 1;
}

/* 7.21.8.1: the value of an element that is read in part is indeterminate. */
static inline void _cub_unwrite(unsigned char *_p, size_t _n)
{
    void *memcpy(void *, const void *, size_t);
    unsigned char _none;
    while (_n--)
        memcpy(_p++, &_none, 1);
}

static inline size_t fread(void *_p, size_t _size, size_t _n, FILE *_stream)
{
    unsigned char *_byte = _p;
    size_t _i, _j;
    int _c;
    if (!_p)
        puts(0);
    if (_stream != stdin) {
        _cub_other(_stream);
        return 0;
    }
    for (_i = 0; _size && _i < _n; _i++)
        for (_j = 0; _j < _size; _j++) {
            if ((_c = _cub_getchar()) == EOF) {
                if (_j > 0)
                    _cub_unwrite(_byte - _j, _size);
                return _i;
            }
            *_byte++ = _c;
        }
    return _i;
}

/* 7.21.8.2 */
static inline size_t fwrite(const void *_p, size_t _size, size_t _n, FILE *_stream)
{
    const unsigned char *_byte = _p;
    size_t _i, _j;
    if (!_p)
        puts(0);
    if (_stream != stdout && _stream != stderr) {
        _cub_other(_stream);
        return 0;
    }
    for (_i = 0; _size && _i < _n; _i++)
        for (_j = 0; _j < _size; _j++)
            fputc(*_byte++, _stream);
    return _i;
}

/* 7.21.5.2: of standard input it is undefined. */
static inline int fflush(FILE *_stream)
{
    if (_stream && _stream != stdout && _stream != stderr)
        puts(0);
    return 0;
}

/* 7.21.10 */
static inline int feof(FILE *_stream) { return _stream->_last == EOF; }
static inline int ferror(FILE *_stream) { return _stream->_wrong; }

static inline void clearerr(FILE *_stream)
{
    _stream->_last = 0;
    _stream->_wrong = 0;
}

/* 7.21.10.4 */
static inline void perror(const char *_s)
{
    if (_s && *_s) {
        fputs(_s, stderr);
        _cub_fprintf(2, ": ");
    }
    _cub_fprintf(2, "%s\n", _cub_error_text(_cub_errno));
}

/* 7.21.5.3: no file opens (own). */
static inline FILE *fopen(const char *_name, const char *_mode)
{
    if (!_name || !_mode)
        puts(0);
    return NULL;
}

/* 7.21.5.1: a stream that is closed isn't followed, so the run ends there, outside. */
static inline int fclose(FILE *_stream)
{
    int _none;
    if (_stream != stdin && _stream != stdout && _stream != stderr)
        puts(0);
    printf("%n", &_none);
    return 0;
}

#define getchar() _cub_getchar()

#endif

/* 7.24 */
#ifndef _CUB_STRING_H
#define _CUB_STRING_H

#include <_cub_base.h>
#include <_cub_error_text.h>

void *memcpy(void *, const void *, size_t);
void *memmove(void *, const void *, size_t);
void *memset(void *, int, size_t);
int memcmp(const void *, const void *, size_t);
size_t strlen(const char *);
char *strcpy(char *, const char *);
int strcmp(const char *, const char *);
char *strchr(const char *, int);

/* A call of memcmp for no bytes looks at its pointers (7.24.1p2), a call of strlen at its string. */

/* 7.24.2.4 */
static inline char *strncpy(char *_d, const char *_s, size_t _n)
{
    size_t _k = 0;
    memcmp(_d, _s, 0);
    while (_k < _n && _s[_k])
        _k++;
    memcpy(_d, _s, _k < _n ? _k + 1 : _k);
    memset(_d + _k, 0, _n - _k);
    return _d;
}

/* 7.24.3.1 */
static inline char *strcat(char *_d, const char *_s)
{
    strcpy(_d + strlen(_d), _s);
    return _d;
}

/* 7.24.3.2 */
static inline char *strncat(char *_d, const char *_s, size_t _n)
{
    char *_end = _d + strlen(_d);
    size_t _k = 0;
    memcmp(_s, _s, 0);
    while (_k < _n && _s[_k])
        _k++;
    memcpy(_end, _s, _k < _n ? _k + 1 : _k);
    _end[_k] = 0;
    return _d;
}

/* 7.24.4.3, 7.24.4.5: in the locale "C". Where not all has room, what is there is indeterminate. */
static inline int strcoll(const char *_a, const char *_b) { return strcmp(_a, _b); }

static inline size_t strxfrm(char *_d, const char *_s, size_t _n)
{
    size_t _k = strlen(_s), _i;
    char _none;
    if (_n)
        memcpy(_d, _s, _k < _n ? _k + 1 : _n);
    for (_i = 0; _k >= _n && _i < _n; _i++)
        memcpy(_d + _i, &_none, 1);
    return _k;
}

/* 7.24.4.4 */
static inline int strncmp(const char *_a, const char *_b, size_t _n)
{
    memcmp(_a, _b, 0);
    while (_n && *_a == *_b && *_a)
        _a++, _b++, _n--;
    return _n == 0 || *_a == *_b ? 0 : (unsigned char)*_a < (unsigned char)*_b ? -1 : 1;
}

/* 7.24.5.1 */
static inline void *memchr(const void *_s, int _c, size_t _n)
{
    const unsigned char *_p = _s;
    memcmp(_s, _s, 0);
    for (; _n; _p++, _n--)
        if (*_p == (unsigned char)_c)
            return (void *)_p;
    return NULL;
}

/* 7.24.5.5 */
static inline char *strrchr(const char *_s, int _c)
{
    size_t _n = strlen(_s) + 1;
    while (_n--)
        if (_s[_n] == (char)_c)
            return (char *)_s + _n;
    return NULL;
}

/* 7.24.5.6 */
static inline size_t strspn(const char *_s, const char *_set)
{
    size_t _n = 0;
    strlen(_s), strlen(_set);
    while (_s[_n] && strchr(_set, _s[_n]))
        _n++;
    return _n;
}

/* 7.24.5.3 */
static inline size_t strcspn(const char *_s, const char *_set)
{
    size_t _n = 0;
    strlen(_s), strlen(_set);
    while (!strchr(_set, _s[_n]))
        _n++;
    return _n;
}

/* 7.24.5.4 */
static inline char *strpbrk(const char *_s, const char *_set)
{
    _s += strcspn(_s, _set);
    return *_s ? (char *)_s : NULL;
}

/* 7.24.5.7 */
static inline char *strstr(const char *_s, const char *_word)
{
    size_t _n = strlen(_word);
    const char *_end = _s + strlen(_s);
    while (_s && (size_t)(_end - _s) >= _n) {
        if (memcmp(_s, _word, _n) == 0)
            return (char *)_s;
        _s = strchr(_s + 1, *_word);
    }
    return NULL;
}

/* 7.24.5.8 */
static char *_cub_token;

static inline char *strtok(char *_s, const char *_set)
{
    if (!_s)
        _s = _cub_token;
    _s += strspn(_s, _set);
    _cub_token = _s + strcspn(_s, _set);
    if (_s == _cub_token)
        return NULL;
    if (*_cub_token)
        *_cub_token++ = 0;
    return _s;
}

/* 7.24.6.2 */
static inline char *strerror(int _n) { return _cub_error_text(_n); }

#endif

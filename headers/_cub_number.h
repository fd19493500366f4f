/* 7.22.1.4, 7.8.2.3: numbers from text. */
#ifndef _CUB_NUMBER_H
#define _CUB_NUMBER_H

#include <_cub_base.h>
#include <_cub_errno.h>

/* What the text of a number says. The base is 0 or from 2 to 36. */
struct _cub_number { unsigned long _size; _Bool _minus, _over; };

static inline struct _cub_number _cub_number(const char *_s, char **_end, int _base)
{
    struct _cub_number _r = {0, 0, 0};
    const char *_behind = _s;
    int _d;
    void *memcpy(void *, const void *, size_t);
    if (_base < 0 || _base == 1 || _base > 36)
        memcpy(0, 0, 0);
    while (*_s == ' ' || (*_s >= '\t' && *_s <= '\r'))
        _s++;
    if (*_s == '-' || *_s == '+')
        _r._minus = *_s++ == '-';
    if (*_s == '0' && (_base == 0 || _base == 16) && (_s[1] == 'x' || _s[1] == 'X')) {
        _behind = ++_s;
        _s++;
        _base = 16;
    }
    if (_base == 0)
        _base = *_s == '0' ? 8 : 10;
    for (;; _behind = ++_s) {
        _d = *_s >= '0' && *_s <= '9' ? *_s - '0' : *_s >= 'a' && *_s <= 'z' ? *_s - 'a' + 10 : *_s >= 'A' && *_s <= 'Z' ? *_s - 'A' + 10 : 36;
        if (_d >= _base)
            break;
        if (_r._size >> 58 && _r._size > (0xfffffffffffffffful - _d) / _base)
            _r._over = 1;
        _r._size = _r._size * _base + _d;
    }
    if (_end)
        *_end = (char *)_behind;
    return _r;
}

/* A function of this name that gives such a number, or the nearest one with ERANGE. */
#define _CUB_SIGNED(_name, _type) \
    static inline _type _name(const char *_s, char **_end, int _base) \
    { \
        struct _cub_number _r = _cub_number(_s, _end, _base); \
        if (_r._over || _r._size > 0x7ffffffffffffffful + _r._minus) { \
            _cub_errno = 34; \
            return _r._minus ? -0x7fffffffffffffffl - 1 : 0x7fffffffffffffffl; \
        } \
        return _r._minus ? -_r._size : _r._size; \
    }

#define _CUB_UNSIGNED(_name, _type) \
    static inline _type _name(const char *_s, char **_end, int _base) \
    { \
        struct _cub_number _r = _cub_number(_s, _end, _base); \
        if (_r._over) { \
            _cub_errno = 34; \
            return 0xfffffffffffffffful; \
        } \
        return _r._minus ? -_r._size : _r._size; \
    }

#endif

/* 7.11, in part: the locale is "C" (own). */
#ifndef _CUB_LOCALE_H
#define _CUB_LOCALE_H

#include <_cub_base.h>

#define LC_CTYPE 0
#define LC_NUMERIC 1
#define LC_TIME 2
#define LC_COLLATE 3
#define LC_MONETARY 4
#define LC_ALL 6

static inline char *setlocale(int _category, const char *_name)
{
    if (_category < LC_CTYPE || _category > LC_ALL)
        return NULL;
    if (!_name || !_name[0] || (_name[0] == 'C' && !_name[1]))
        return "C";
    return NULL;
}

#endif

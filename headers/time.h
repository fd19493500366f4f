/* 7.27, in part: no time passes (own). */
#ifndef _CUB_TIME_H
#define _CUB_TIME_H

#include <_cub_base.h>

#define CLOCKS_PER_SEC 1000000L

typedef long clock_t;
typedef long time_t;

static inline clock_t clock(void) { return 0; }

static inline time_t time(time_t *_t)
{
    if (_t)
        *_t = 0;
    return 0;
}

#endif

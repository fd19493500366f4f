/* 7.19 */
#ifndef _CUB_STDDEF_H
#define _CUB_STDDEF_H

#include <_cub_base.h>

typedef long ptrdiff_t;
typedef long max_align_t;

#ifndef _CUB_WCHAR_T
#define _CUB_WCHAR_T
typedef int wchar_t;
#endif

/* An object in which any structure of up to 2^16 bytes has its place; the type of an array of -1 refuses a larger one. */
static union { max_align_t _a; char _bytes[65536]; } _cub_room;

#define offsetof(t, m) ((size_t)((char *)&((t *)(void *)&_cub_room)->m - _cub_room._bytes \
    + 0 * sizeof(char[sizeof(t) <= sizeof _cub_room ? 1 : -1])))

#endif

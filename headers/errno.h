/* 7.5 */
#ifndef _CUB_ERRNO_H
#define _CUB_ERRNO_H

#include <_cub_errno.h>

#define errno _cub_errno

#define EDOM 33
#define ERANGE 34
#define EILSEQ 84

#endif

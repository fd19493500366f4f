/* 7.5: the object that errno names. */
#ifndef _CUB_ERRNO_OBJECT_H
#define _CUB_ERRNO_OBJECT_H

static int _cub_errno;

#endif

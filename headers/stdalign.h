/* 7.15, in part */
#ifndef _CUB_STDALIGN_H
#define _CUB_STDALIGN_H

#define alignof _Alignof
#define __alignof_is_defined 1

#endif

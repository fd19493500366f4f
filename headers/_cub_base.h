/* 7.19: what several headers define. */
#ifndef _CUB_BASE_H
#define _CUB_BASE_H

typedef unsigned long size_t;

#define NULL ((void*)0)

#endif

/* 7.23 */
#ifndef _CUB_STDNORETURN_H
#define _CUB_STDNORETURN_H

#define noreturn _Noreturn

#endif

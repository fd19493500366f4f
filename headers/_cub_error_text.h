/* 7.24.6.2: the texts of the numbers that errno may have. */
#ifndef _CUB_ERROR_TEXT_H
#define _CUB_ERROR_TEXT_H

static inline char *_cub_error_text(int _n)
{
    switch (_n) {
    case 0:
        return "Success";
    case 33:
        return "Numerical argument out of domain";
    case 34:
        return "Numerical result out of range";
    case 84:
        return "Invalid or incomplete multibyte or wide character";
    default:
        return "Unknown error";
    }
}

#endif

#include <ctype.h>
#include <errno.h>
#include <inttypes.h>
#include <stdlib.h>
#include <string.h>
#include "functions.h"
#define TABLE ours
#include "table.h"

/* The macros of ctype.h are compared with its functions, and so with the other library's. */
int macros_agree(void)
{
    int c, wrong = 0;
    for (c = -1; c < 256; c++)
        wrong += isalnum(c) != (isalnum)(c) || isalpha(c) != (isalpha)(c) || isblank(c) != (isblank)(c) || iscntrl(c) != (iscntrl)(c)
            || isdigit(c) != (isdigit)(c) || isgraph(c) != (isgraph)(c) || islower(c) != (islower)(c) || isprint(c) != (isprint)(c)
            || ispunct(c) != (ispunct)(c) || isspace(c) != (isspace)(c) || isupper(c) != (isupper)(c) || isxdigit(c) != (isxdigit)(c)
            || tolower(c) != (tolower)(c) || toupper(c) != (toupper)(c);
    return wrong == 0;
}

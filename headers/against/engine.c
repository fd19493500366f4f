/* What the headers take from the engine and no C library has. */
#include <stdarg.h>
#include <stdio.h>

int _cub_fprintf(int stream, const char *format, ...)
{
    va_list more;
    int count;
    va_start(more, format);
    count = vfprintf(stream == 2 ? stderr : stdout, format, more);
    va_end(more);
    return count;
}

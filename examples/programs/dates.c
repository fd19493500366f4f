# 0 "dates.c"
# 0 "<built-in>"
# 0 "<command-line>"
# 1 "dates.c"

# 1 "headers/stdbool.h" 1
# 3 "dates.c" 2
# 1 "headers/stdio.h" 1




# 1 "headers/_cub_base.h" 1




typedef unsigned long size_t;
# 6 "headers/stdio.h" 2




int getchar(void);
int putchar(int);
int puts(const char *);
int printf(const char *, ...);


typedef struct _cub_file { int _back, _last, _wrong; } FILE;

static FILE _cub_stdin, _cub_stdout;





static inline int _cub_other(FILE *_stream, FILE *_other)
{
    if (_stream != _other)
        puts(0);
    _other->_wrong = 1;
    return (-1);
}


static inline int _cub_getchar(void)
{
    if (!_cub_stdin._back)
        return _cub_stdin._last = getchar();
    _cub_stdin._last = _cub_stdin._back - 1;
    _cub_stdin._back = 0;
    return _cub_stdin._last;
}


static inline int fgetc(FILE *_stream) { return _stream == (&_cub_stdin) ? _cub_getchar() : _cub_other(_stream, (&_cub_stdout)); }
static inline int getc(FILE *_stream) { return _stream == (&_cub_stdin) ? _cub_getchar() : _cub_other(_stream, (&_cub_stdout)); }


static inline int ungetc(int _c, FILE *_stream)
{
    if (_stream != (&_cub_stdin))
        return _cub_other(_stream, (&_cub_stdout));
    if (_c == (-1) || _cub_stdin._back)
        return (-1);
    _cub_stdin._last = (unsigned char)_c;
    _cub_stdin._back = _cub_stdin._last + 1;
    return _cub_stdin._last;
}


static inline char *fgets(char *_s, int _n, FILE *_stream)
{
    char *_at = _s;
    int _c = 0;
    if (!_s || _n <= 0)
        puts(0);
    if (_stream != (&_cub_stdin)) {
        _cub_other(_stream, (&_cub_stdout));
        return ((void*)0);
    }
    if (_n > 1) {
        while (_n > 1 && _c != '\n' && (_c = _cub_stdin._back ? _cub_getchar() : getchar()) >= 0)
            *_at++ = _c, _n--;
        _cub_stdin._last = _c;
    }
    if (_c < 0 && _at == _s)
        return ((void*)0);
    *_at = 0;
    return _s;
}


static inline int fputc(int _c, FILE *_stream) { return _stream == (&_cub_stdout) ? putchar(_c) : _cub_other(_stream, (&_cub_stdin)); }
static inline int putc(int _c, FILE *_stream) { return _stream == (&_cub_stdout) ? putchar(_c) : _cub_other(_stream, (&_cub_stdin)); }


static inline int fputs(const char *_s, FILE *_stream)
{
    if (_stream != (&_cub_stdout))
        return _cub_other(_stream, (&_cub_stdin));
    while (printf("%.4095s", _s) == 4095)
        _s += 4095;
    return 1;
}


static inline void _cub_unwrite(unsigned char *_p, size_t _n)
{
    void *memcpy(void *, const void *, size_t);
    unsigned char _none;
    while (_n--)
        memcpy(_p++, &_none, 1);
}

static inline size_t fread(void *_p, size_t _size, size_t _n, FILE *_stream)
{
    unsigned char *_byte = _p;
    size_t _i, _j;
    int _c;
    if (!_p)
        puts(0);
    if (_stream != (&_cub_stdin)) {
        _cub_other(_stream, (&_cub_stdout));
        return 0;
    }
    for (_i = 0; _size && _i < _n; _i++)
        for (_j = 0; _j < _size; _j++) {
            if ((_c = _cub_getchar()) == (-1)) {
                if (_j > 0)
                    _cub_unwrite(_byte - _j, _size);
                return _i;
            }
            *_byte++ = _c;
        }
    return _i;
}


static inline size_t fwrite(const void *_p, size_t _size, size_t _n, FILE *_stream)
{
    const unsigned char *_byte = _p;
    size_t _i, _j;
    if (!_p)
        puts(0);
    if (_stream != (&_cub_stdout)) {
        _cub_other(_stream, (&_cub_stdin));
        return 0;
    }
    for (_i = 0; _size && _i < _n; _i++)
        for (_j = 0; _j < _size; _j++)
            putchar(*_byte++);
    return _i;
}


static inline int fflush(FILE *_stream)
{
    if (_stream && _stream != (&_cub_stdout))
        puts(0);
    return 0;
}


static inline int feof(FILE *_stream) { return _stream->_last == (-1); }
static inline int ferror(FILE *_stream) { return _stream->_wrong; }

static inline void clearerr(FILE *_stream)
{
    _stream->_last = 0;
    _stream->_wrong = 0;
}


static inline FILE *fopen(const char *_name, const char *_mode)
{
    if (!_name || !_mode)
        puts(0);
    return ((void*)0);
}


static inline int fclose(FILE *_stream)
{
    int _none;
    if (_stream != (&_cub_stdin) && _stream != (&_cub_stdout))
        puts(0);
    printf("%n", &_none);
    return 0;
}
# 4 "dates.c" 2

struct date {
    int year, month, day;
};

static _Bool is_leap(int year) { return (year % 4 == 0 && year % 100 != 0) || year % 400 == 0; }

static int days_in(int year, int month)
{
    static const unsigned char days[] = {31, 28, 31, 30, 31, 30, 31, 31, 30, 31, 30, 31};
    return month == 2 && is_leap(year) ? 29 : days[month - 1];
}


static long number(struct date d)
{
    int y = d.month > 2 ? d.year : d.year - 1, m = (d.month + 9) % 12;
    return 365L * y + y / 4 - y / 100 + y / 400 + (m * 306 + 5) / 10 + d.day - 1;
}

static struct date date_of(long n)
{
    struct date d;
    long y = (10000 * n + 14780) / 3652425;
    long day = n - (365 * y + y / 4 - y / 100 + y / 400);
    if (day < 0) {
        y--;
        day = n - (365 * y + y / 4 - y / 100 + y / 400);
    }
    int m = (int)((100 * day + 52) / 3060);
    d.month = (m + 2) % 12 + 1;
    d.year = (int)y + (m + 2) / 12;
    d.day = (int)day - (m * 306 + 5) / 10 + 1;
    return d;
}

static int weekday(struct date d) { return (int)((number(d) + 3) % 7); }

static struct date easter(int year)
{
    int a = year % 19, b = year / 100, c = year % 100, d = b / 4, e = b % 4, f = (b + 8) / 25, g = (b - f + 1) / 3;
    int h = (19 * a + b - d - g + 15) % 30, i = c / 4, k = c % 4, l = (32 + 2 * e + 2 * i - h - k) % 7, m = (a + 11 * h + 22 * l) / 451;
    struct date result = {year, (h + l - 7 * m + 114) / 31, (h + l - 7 * m + 114) % 31 + 1};
    return result;
}

static void print_month(int year, int month)
{
    static const char *const names[] = {"January", "February", "March", "April", "May", "June",
        "July", "August", "September", "October", "November", "December"};
    struct date first = {year, month, 1};
    int column = (weekday(first) + 6) % 7;
    printf("%13s %d\nMo Tu We Th Fr Sa Su\n%*s", names[month - 1], year, 3 * column, "");
    for (int day = 1; day <= days_in(year, month); day++) {
        printf("%2d%c", day, column == 6 ? '\n' : ' ');
        column = (column + 1) % 7;
    }
    if (column)
        putchar('\n');
}

int main(void)
{
    static const char *const days[] = {"Sunday", "Monday", "Tuesday", "Wednesday", "Thursday", "Friday", "Saturday"};
    static const struct date some[] = {{1970, 1, 1}, {2000, 2, 29}, {1999, 12, 31}, {2011, 12, 8}, {2026, 11, 28}};
    for (unsigned i = 0; i < sizeof some / sizeof some[0]; i++) {
        struct date next = date_of(number(some[i]) + 100);
        printf("%d-%02d-%02d is a %s; 100 days later it is %d-%02d-%02d\n", some[i].year, some[i].month, some[i].day, days[weekday(some[i])],
            next.year, next.month, next.day);
    }
    int wrong = 0;
    struct date d = {1899, 12, 25};
    long n = number(d);
    for (int i = 0; i < 500; i++) {
        struct date e = date_of(n + i);
        wrong += e.year != d.year || e.month != d.month || e.day != d.day;
        if (++d.day > days_in(d.year, d.month)) {
            d.day = 1;
            if (++d.month > 12) {
                d.month = 1;
                d.year++;
            }
        }
    }
    printf("%d wrong\n", wrong);
    for (int year = 2024; year < 2028; year++) {
        struct date e = easter(year);
        printf("Easter %d: %d.%d.\n", year, e.day, e.month);
    }
    print_month(2024, 2);
    return wrong;
}

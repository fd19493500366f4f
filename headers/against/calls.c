/* Calls each function of headers/ and the one of the C library with the same arguments, and compares what they give, store and leave in errno. */
#include <limits.h>
#include <stdint.h>
#include <stdio.h>
#include <stdlib.h>
#include <string.h>
#include "functions.h"

#define COUNT(a) (sizeof(a) / sizeof(a)[0])

static long calls, wrong;

static void told(const char *name, int holds, long a, long b)
{
    calls++;
    if (!holds) {
        wrong++;
        printf("%s differs, case %ld %ld\n", name, a, b);
    }
}

static int sign(int n) { return (n > 0) - (n < 0); }

/* The place of a result in its array, or -1. */
static long place(const void *result, const void *start) { return result ? (const char *)result - (const char *)start : -1; }

static const char *const texts[] = {
    "", "a", "b", "ab", "abc", "abcabc", "aaa", "aaab", "abab", "ababc", "\xff", "a\xff", "hello, world", ",", ",,", ",a,,b,", " \t\n", "x=1;y=2",
    "AbC", "needle in a haystack with a needle", "\x80\x7f\x01", "aabaaabaaaab",
};
static const char *const sets[] = {"", "a", "b", ",", ", ", "abc", "xyz", "\xff", " \t\n", "=;", "aaab", "ab", "needle", "cab", "\x80"};

static void strings(void)
{
    for (size_t i = 0; i < COUNT(texts); i++) {
        const char *s = texts[i];
        for (size_t j = 0; j < COUNT(sets); j++) {
            const char *set = sets[j];
            told("strspn", ours.strspn(s, set) == theirs.strspn(s, set), i, j);
            told("strcspn", ours.strcspn(s, set) == theirs.strcspn(s, set), i, j);
            told("strpbrk", place(ours.strpbrk(s, set), s) == place(theirs.strpbrk(s, set), s), i, j);
            told("strstr", place(ours.strstr(s, set), s) == place(theirs.strstr(s, set), s), i, j);
            told("strcoll", sign(ours.strcoll(s, set)) == sign(theirs.strcoll(s, set)), i, j);
            for (size_t n = 0; n < 9; n++)
                told("strncmp", sign(ours.strncmp(s, set, n)) == sign(theirs.strncmp(s, set, n)), i * 100 + j, n);
            told("strncmp", sign(ours.strncmp(s, set, SIZE_MAX)) == sign(theirs.strncmp(s, set, SIZE_MAX)), i, j);
            char a[64], b[64];
            memset(a, '#', sizeof a), memset(b, '#', sizeof b);
            strcpy(a, s), strcpy(b, s);
            told("strcat", ours.strcat(a, set) == a && theirs.strcat(b, set) == b && memcmp(a, b, sizeof a) == 0, i, j);
            for (size_t n = 0; n < 9; n++) {
                memset(a, '#', sizeof a), memset(b, '#', sizeof b);
                strcpy(a, s), strcpy(b, s);
                told("strncat", ours.strncat(a, set, n) == a && theirs.strncat(b, set, n) == b && memcmp(a, b, sizeof a) == 0, i * 100 + j, n);
            }
            strcpy(a, s), strcpy(b, s);
            char *p = a, *q = b;
            for (int turn = 0; turn < 5; turn++) {
                char *x = ours.strtok(p, set), *y = theirs.strtok(q, set);
                told("strtok", place(x, a) == place(y, b) && memcmp(a, b, sizeof a) == 0, i * 100 + j, turn);
                p = q = NULL;
            }
        }
        for (int c = 0; c < 256; c++) {
            told("strrchr", place(ours.strrchr(s, c), s) == place(theirs.strrchr(s, c), s), i, c);
            told("memchr", place(ours.memchr(s, c, strlen(s) + 1), s) == place(theirs.memchr(s, c, strlen(s) + 1), s), i, c);
            told("memchr", place(ours.memchr(s, c, strlen(s) / 2), s) == place(theirs.memchr(s, c, strlen(s) / 2), s), i, c);
        }
        for (size_t n = 0; n < 40; n++) {
            char a[64], b[64];
            memset(a, '#', sizeof a), memset(b, '#', sizeof b);
            told("strncpy", ours.strncpy(a, s, n) == a && theirs.strncpy(b, s, n) == b && memcmp(a, b, sizeof a) == 0, i, n);
            memset(a, '#', sizeof a), memset(b, '#', sizeof b);
            int fits = n > strlen(s);
            told("strxfrm", ours.strxfrm(a, s, n) == theirs.strxfrm(b, s, n) && (!fits || memcmp(a, b, sizeof a) == 0), i, n);
        }
        told("strxfrm", ours.strxfrm(NULL, s, 0) == theirs.strxfrm(NULL, s, 0), i, 0);
    }
    /* arrays without a zero */
    char three[3] = {'a', 'b', 'c'}, a[8], b[8];
    for (size_t n = 0; n < 4; n++) {
        memset(a, '#', sizeof a), memset(b, '#', sizeof b);
        told("strncpy", ours.strncpy(a, three, n) == a && theirs.strncpy(b, three, n) == b && memcmp(a, b, sizeof a) == 0, 1000, n);
        told("strncmp", sign(ours.strncmp(three, "abd", n)) == sign(theirs.strncmp(three, "abd", n)), 1000, n);
        memset(a, 0, sizeof a), memset(b, 0, sizeof b);
        told("strncat", ours.strncat(a, three, n) == a && theirs.strncat(b, three, n) == b && memcmp(a, b, sizeof a) == 0, 1000, n);
    }
    static const int numbers[] = {0, 33, 34, 84};
    for (size_t i = 0; i < COUNT(numbers); i++)
        told("strerror", strcmp(ours.strerror(numbers[i]), theirs.strerror(numbers[i])) == 0, numbers[i], 0);
}

static const char *const numerals[] = {
    "", " ", "0", "1", "-1", "+1", "42", "  42", "\t\n\v\f\r 42", "42 ", "42abc", "-", "+", "--1", "+-1", "- 1", "abc", "0x", "0X", "0x1", "0xg", "0xFf",
    "-0x10", "+0x", "x1", "00", "007", "08", "-08", "0b1", "z", "Z", "zz", "10", "777", "ffffffff", "9223372036854775807", "9223372036854775808",
    "-9223372036854775808", "-9223372036854775809", "18446744073709551615", "18446744073709551616", "-18446744073709551615", "-18446744073709551616",
    "99999999999999999999999999", "-99999999999999999999999999", "7fffffffffffffff", "8000000000000000", "ffffffffffffffff", "10000000000000000",
    "0xffffffffffffffff", "0x10000000000000000", "1777777777777777777777", "2000000000000000000000", "1y2p0ij32e8e7", "1y2p0ij32e8e8", "3w5e11264sgsf",
    "3w5e11264sgsg", "111111111111111111111111111111111111111111111111111111111111111", "2147483647", "2147483648", "-2147483648", "1.5", "1e5", "\xff",
    "0 x1", "0x 1", "12 34", "a", "A", "0a", "0A", "-z", "-a",
};
static const int bases[] = {0, 2, 3, 7, 8, 9, 10, 11, 15, 16, 17, 35, 36};

static void read_numbers(void)
{
    for (size_t i = 0; i < COUNT(numerals); i++) {
        const char *s = numerals[i];
        for (size_t j = 0; j < COUNT(bases); j++) {
            char *x, *y;
            int base = bases[j];
#define READ(f, type)                                                                                                                    \
    do {                                                                                                                                 \
        type n = ours.f(s, &x, base), m = theirs.f(s, &y, base);                                                                         \
        told(#f, n == m && x == y && ours.take_errno() == theirs.take_errno(), i, base);                                                 \
        n = ours.f(s, NULL, base), m = theirs.f(s, NULL, base);                                                                          \
        told(#f " without an end", n == m && ours.take_errno() == theirs.take_errno(), i, base);                                         \
    } while (0)
            READ(strtol, long);
            READ(strtoll, long long);
            READ(strtoul, unsigned long);
            READ(strtoull, unsigned long long);
            READ(strtoimax, long);
            READ(strtoumax, unsigned long);
        }
        long n = theirs.strtol(s, NULL, 10);
        if (theirs.take_errno() == 0) {
            told("atol", ours.atol(s) == theirs.atol(s) && ours.atoll(s) == theirs.atoll(s), i, 0);
            if (n >= INT_MIN && n <= INT_MAX)
                told("atoi", ours.atoi(s) == theirs.atoi(s), i, 0);
        }
    }
}

static void arithmetic(void)
{
    static const long values[] = {0, 1, -1, 2, -2, 7, -7, 10, 1000, INT_MAX, -INT_MAX, INT_MIN, LONG_MAX, -LONG_MAX, LONG_MIN, 1L << 40};
    for (size_t i = 0; i < COUNT(values); i++) {
        long a = values[i];
        if (a > INT_MIN && a <= INT_MAX)
            told("abs", ours.abs(a) == theirs.abs(a), a, 0);
        if (a > LONG_MIN)
            told("labs", ours.labs(a) == theirs.labs(a) && ours.llabs(a) == theirs.llabs(a) && ours.imaxabs(a) == theirs.imaxabs(a), a, 0);
        for (size_t j = 0; j < COUNT(values); j++) {
            long b = values[j];
            if (b == 0 || (a == LONG_MIN && b == -1))
                continue;
            struct long_quotients x = ours.ldiv(a, b), y = theirs.ldiv(a, b);
            told("ldiv", x.quot == y.quot && x.rem == y.rem, a, b);
            x = ours.lldiv(a, b), y = theirs.lldiv(a, b);
            told("lldiv", x.quot == y.quot && x.rem == y.rem, a, b);
            x = ours.imaxdiv(a, b), y = theirs.imaxdiv(a, b);
            told("imaxdiv", x.quot == y.quot && x.rem == y.rem, a, b);
            if (a < INT_MIN || a > INT_MAX || b < INT_MIN || b > INT_MAX || (a == INT_MIN && b == -1))
                continue;
            struct quotients p = ours.div(a, b), q = theirs.div(a, b);
            told("div", p.quot == q.quot && p.rem == q.rem, a, b);
        }
    }
    static const unsigned seeds[] = {1, 0, 2, 42, 2147483646, 2147483647, 2147483648u, 4294967295u, 12345, 1};
    for (int i = 0; i < 100; i++)
        told("rand before srand", ours.rand() == theirs.rand(), i, 0);
    for (size_t j = 0; j < COUNT(seeds); j++) {
        ours.srand(seeds[j]), theirs.srand(seeds[j]);
        for (int i = 0; i < 100; i++)
            told("rand", ours.rand() == theirs.rand(), seeds[j], i);
    }
    for (int c = -1; c < 256; c++) {
        for (int k = 0; k < 12; k++)
            told("a class", ours.classes[k](c) == theirs.classes[k](c), k, c);
        told("tolower", ours.tolower(c) == theirs.tolower(c), c, 0);
        told("toupper", ours.toupper(c) == theirs.toupper(c), c, 0);
    }
}

static unsigned long compared;

static int by_int(const void *a, const void *b)
{
    int x = *(const int *)a, y = *(const int *)b;
    compared = compared * 31 + (unsigned)(x * 7 + y);
    return (x > y) - (x < y);
}

struct wide { int key, place; char rest[52]; };

static int by_key(const void *a, const void *b) { return ((const struct wide *)a)->key - ((const struct wide *)b)->key; }
static int by_byte(const void *a, const void *b) { return *(const unsigned char *)a - *(const unsigned char *)b; }
static int by_text(const void *a, const void *b) { return strcmp(*(char *const *)a, *(char *const *)b); }

static void sorts(void)
{
    static const size_t sizes[] = {0, 1, 2, 3, 4, 5, 7, 8, 9, 16, 17, 31, 33, 100, 255, 256, 1000};
    for (size_t i = 0; i < COUNT(sizes); i++)
        for (int kind = 0; kind < 5; kind++) {
            static int a[1000], b[1000];
            static struct wide w[1000], v[1000];
            static unsigned char c[1000], d[1000];
            size_t n = sizes[i];
            for (size_t k = 0; k < n; k++) {
                a[k] = kind == 0 ? (int)k : kind == 1 ? (int)(n - k) : kind == 2 ? 5 : kind == 3 ? (int)(k * 7919 % 1009) - 500 : (int)(k % 3);
                b[k] = a[k];
                c[k] = d[k] = a[k];
                w[k] = v[k] = (struct wide){a[k], (int)k, ""};
            }
            compared = 0;
            ours.qsort(a, n, sizeof *a, by_int);
            unsigned long was = compared;
            compared = 0;
            theirs.qsort(b, n, sizeof *b, by_int);
            told("qsort", memcmp(a, b, sizeof a) == 0 && was == compared, n, kind);
            ours.qsort(w, n, sizeof *w, by_key), theirs.qsort(v, n, sizeof *v, by_key);
            told("qsort of structures", memcmp(w, v, sizeof w) == 0, n, kind);
            ours.qsort(c, n, 1, by_byte), theirs.qsort(d, n, 1, by_byte);
            told("qsort of bytes", memcmp(c, d, sizeof c) == 0, n, kind);
            for (int key = -3; key < 12; key++)
                told("bsearch", ours.bsearch(&key, a, n, sizeof *a, by_int) == theirs.bsearch(&key, a, n, sizeof *a, by_int), n, key);
        }
    const char *p[COUNT(texts)], *q[COUNT(texts)];
    memcpy(p, texts, sizeof texts), memcpy(q, texts, sizeof texts);
    ours.qsort(p, COUNT(p), sizeof *p, by_text), theirs.qsort(q, COUNT(q), sizeof *q, by_text);
    told("qsort of pointers", memcmp(p, q, sizeof p) == 0, 0, 0);
}

int macros_agree(void);

int main(void)
{
    told("a macro of ctype.h", macros_agree(), 0, 0);
    strings();
    read_numbers();
    arithmetic();
    sorts();
    printf("%ld calls, %ld differ\n", calls, wrong);
    return wrong != 0;
}

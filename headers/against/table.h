/* The table of whichever headers were included, as TABLE. */
static struct quotients divided(int n, int d)
{
    div_t r = div(n, d);
    return (struct quotients){r.quot, r.rem};
}
static struct long_quotients long_divided(long n, long d)
{
    ldiv_t r = ldiv(n, d);
    return (struct long_quotients){r.quot, r.rem};
}
static struct long_quotients long_long_divided(long n, long d)
{
    lldiv_t r = lldiv(n, d);
    return (struct long_quotients){r.quot, r.rem};
}
static struct long_quotients greatest_divided(long n, long d)
{
    imaxdiv_t r = imaxdiv(n, d);
    return (struct long_quotients){r.quot, r.rem};
}
static int take_errno(void)
{
    int was = errno;
    errno = 0;
    return was;
}

const struct functions TABLE = {
    {(isalnum), (isalpha), (isblank), (iscntrl), (isdigit), (isgraph), (islower), (isprint), (ispunct), (isspace), (isupper), (isxdigit)},
    (tolower), (toupper), atoi, atol, atoll, strtol, strtoll, strtoul, strtoull, strtoimax, strtoumax, rand, srand, abs, labs, llabs, imaxabs,
    divided, long_divided, long_long_divided, greatest_divided, qsort, bsearch, strncpy, strcat, strncat, strcoll, strxfrm, strncmp, memchr,
    strrchr, strspn, strcspn, strpbrk, strstr, strtok, strerror, take_errno,
};

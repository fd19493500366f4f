/* The functions of headers/ that are compared, each by a pointer. */
struct quotients { int quot, rem; };
struct long_quotients { long quot, rem; };

struct functions {
    int (*classes[12])(int);
    int (*tolower)(int), (*toupper)(int);
    int (*atoi)(const char *);
    long (*atol)(const char *);
    long long (*atoll)(const char *);
    long (*strtol)(const char *, char **, int);
    long long (*strtoll)(const char *, char **, int);
    unsigned long (*strtoul)(const char *, char **, int);
    unsigned long long (*strtoull)(const char *, char **, int);
    long (*strtoimax)(const char *, char **, int);
    unsigned long (*strtoumax)(const char *, char **, int);
    int (*rand)(void);
    void (*srand)(unsigned);
    int (*abs)(int);
    long (*labs)(long);
    long long (*llabs)(long long);
    long (*imaxabs)(long);
    struct quotients (*div)(int, int);
    struct long_quotients (*ldiv)(long, long), (*lldiv)(long, long), (*imaxdiv)(long, long);
    void (*qsort)(void *, unsigned long, unsigned long, int (*)(const void *, const void *));
    void *(*bsearch)(const void *, const void *, unsigned long, unsigned long, int (*)(const void *, const void *));
    char *(*strncpy)(char *, const char *, unsigned long);
    char *(*strcat)(char *, const char *);
    char *(*strncat)(char *, const char *, unsigned long);
    int (*strcoll)(const char *, const char *);
    unsigned long (*strxfrm)(char *, const char *, unsigned long);
    int (*strncmp)(const char *, const char *, unsigned long);
    void *(*memchr)(const void *, int, unsigned long);
    char *(*strrchr)(const char *, int);
    unsigned long (*strspn)(const char *, const char *), (*strcspn)(const char *, const char *);
    char *(*strpbrk)(const char *, const char *), (*(*strstr)(const char *, const char *)), (*(*strtok)(char *, const char *));
    char *(*strerror)(int);
    int (*take_errno)(void);
};

extern const struct functions ours, theirs;

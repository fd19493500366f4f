int printf(const char *, ...);

union number {
    int small;
    char *text;
    long wide;
};

struct tagged {
    union {
        char *text;
        long wide;
    } value;
    int kind;
};

union number first = {.text = "one"};
struct tagged second = {{"two"}, 2};
union {
    char *text;
    char bytes[8];
} third = {"three"};
union {
    struct {
        int count;
        char *text;
    } counted;
    struct {
        long wide;
        char (*row)[5];
    } other;
} fourth[2] = {{{4, "four"}}, {.other = {5, &"five"}}};
union number many[3] = {[2] = {.text = "last"}, [0] = {7}};

int main(void) {
    printf("%s %s %d %s\n", first.text, second.value.text, second.kind, third.text);
    printf("%d %s %d %s\n", fourth[0].counted.count, fourth[0].counted.text, (int)fourth[1].other.wide, *fourth[1].other.row);
    printf("%d %d %s\n", many[0].small, (int)many[1].wide, many[2].text);
    return 0;
}

struct s { char c; int i; };
int main(void) {
    struct s a[1 << 24] =
        {{1}};
    return 0;
}

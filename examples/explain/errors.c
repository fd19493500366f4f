int _cub_fprintf(int, const char *, ...);

int main(void) {
    _cub_fprintf(2, "%d items\n", 3);
    return 0;
}

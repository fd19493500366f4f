// Brace elision: an aggregate without braces of its own takes what it needs from the list round it (6.7.9p20).
struct pair { int first, second; };
struct row { int cells[2]; struct pair pair; };

static int matrix[2][3] = {1, 2, 3, 4};
static struct row rows[] = {1, 2, 3, 4, 5, 6, {7}};

int main(void) {
    struct row half = {{1}, 2, 3};
    struct row rest = {1, .pair.second = 4};
    if (matrix[1][0] != 4 || matrix[1][1] != 0)
        return 1;
    if (sizeof rows != 2 * sizeof rows[0] || rows[0].pair.second != 4)
        return 2;
    if (rows[1].cells[1] != 6 || rows[1].pair.first != 7 || rows[1].pair.second != 0)
        return 3;
    if (half.cells[1] != 0 || half.pair.first != 2 || half.pair.second != 3)
        return 4;
    if (rest.cells[0] != 1 || rest.cells[1] != 0 || rest.pair.first != 0 || rest.pair.second != 4)
        return 5;
    return 42;
}

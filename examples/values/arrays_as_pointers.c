int printf(const char *, ...);

struct holder {
    int (*row)[3];
    int count;
};

int grid[2][3] = {{1, 2, 3}, {4, 5, 6}};
int (*cube)[2][3] = &grid;

int (*rows(void))[3] {
    return grid;
}

struct holder held(void) {
    struct holder h = {grid, 2};
    return h;
}

int sum(int (*row)[3], int *first, const int *last) {
    return (*row)[1] + *first + *last;
}

int main(void) {
    int (*row)[3] = grid;
    struct holder h = {grid, 1};
    struct holder *p = &h;
    char words[2][4] = {"abc", "de"};
    char (*word)[4] = words;
    int *flat = grid[0];
    int yes = 1;
    printf("%d %d %d %d\n", (*row)[1], row[1][0], **row, *row[1]);
    printf("%d %d %d\n", (*rows())[2], (*(yes ? row : grid))[0], (*(yes, row))[1]);
    printf("%d %d %d\n", (*h.row)[2], (*p->row)[1], (*held().row)[0]);
    printf("%d %d %d\n", (*cube)[1][2], **cube[0], ***cube);
    printf("%d %d\n", (*(int (*)[3])flat)[2], (*(const int (*)[3])grid)[1]);
    printf("%s %s %c\n", *word, word[1], **(word + 1));
    printf("%d\n", sum(*cube, **cube, *(row + 1) + 2));
    row = *cube;
    printf("%d ", (*row++)[0]);
    printf("%d ", (*row)[0]);
    printf("%d ", (*--row)[2]);
    printf("%d ", (*(row += 1))[2]);
    printf("%d\n", (*(row = grid))[2]);
    flat = *row;
    printf("%d %d %d\n", flat[2], *(*row + 1), (int)(&grid[1] - row));
    printf("%d %d %d\n", *row == grid[0], *row < grid[1], *row ? 7 : 8);
    return 0;
}

void *realloc(void *, unsigned long);
void free(void *);

struct list { int *items; int count; };

// Appends an item, and tells whether the block moved.
int add(struct list *list, int item) {
    int *items = realloc(list->items, (list->count + 1) * sizeof item);
    if (!items)
        return 0;
    int moved = items != list->items;
    list->items = items;
    items[list->count++] = item;
    return moved;
}

int main(void) {
    struct list squares = {0, 0};
    int moves = 0;
    for (int i = 0; i < 3; i++)
        moves += add(&squares, i * i);
    free(squares.items);
    return moves;
}

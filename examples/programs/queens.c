int printf(const char *, ...);

static int row_of[8];

static int is_free(int column, int row) {
  for (int c = 0; c < column; c++) {
    int distance = column - c;
    if (row_of[c] == row || row_of[c] == row + distance || row_of[c] == row - distance) return 0;
  }
  return 1;
}

static int place(int column, int size) {
  if (column == size) return 1;
  int count = 0;
  for (int row = 0; row < size; row++)
    if (is_free(column, row)) {
      row_of[column] = row;
      count += place(column + 1, size);
    }
  return count;
}

int main(void) {
  for (int size = 1; size <= 6; size++) printf("%d:%d ", size, place(0, size));
  printf("\n");
  return place(0, 6);
}

int columns[8], rising[15], falling[15];
int solutions(int row) {
  if (row == 8)
    return 1;
  int count = 0;
  for (int column = 0; column < 8; column++)
    if (!columns[column] && !rising[row + column] && !falling[row - column + 7]) {
      columns[column] = rising[row + column] = falling[row - column + 7] = 1;
      count += solutions(row + 1);
      columns[column] = rising[row + column] = falling[row - column + 7] = 0;
    }
  return count;
}
int main(void) { return solutions(0); }

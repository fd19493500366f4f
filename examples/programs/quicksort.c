int printf(const char *, ...);

static void swap(int *a, int *b) {
  int t = *a;
  *a = *b;
  *b = t;
}

static void sort(int *first, int *last) {
  if (last - first < 2) return;
  int pivot = *(first + (last - first) / 2);
  int *low = first, *high = last - 1;
  while (low <= high) {
    while (*low < pivot) low++;
    while (*high > pivot) high--;
    if (low <= high) {
      swap(low, high);
      low++;
      if (high == first) break;
      high--;
    }
  }
  if (high > first || (high == first && low > first)) sort(first, high + 1);
  sort(low, last);
}

int main(void) {
  int a[12] = {9, -3, 7, 7, 0, 42, -8, 15, 4, 1, 100, 2};
  sort(a, a + 12);
  for (int i = 0; i < 12; i++) printf("%d%c", a[i], i == 11 ? '\n' : ' ');
  return a[0] == -8 && a[11] == 100;
}

int a[1500];
void sort(int *from, int *to) {
  if (to - from < 2)
    return;
  int pivot = *from;
  int *low = from, *high = to - 1;
  while (low < high) {
    while (low < high && *high >= pivot)
      high--;
    *low = *high;
    while (low < high && *low <= pivot)
      low++;
    *high = *low;
  }
  *low = pivot;
  sort(from, low);
  sort(low + 1, to);
}
int main(void) {
  unsigned x = 1;
  for (int i = 0; i < 1500; i++) {
    x = x * 1103515245u + 12345u;
    a[i] = x >> 8;
  }
  sort(a, a + 1500);
  for (int i = 1; i < 1500; i++)
    if (a[i - 1] > a[i])
      return 1;
  return 0;
}

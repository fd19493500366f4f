int a[26][26], b[26][26], c[26][26];
int main(void) {
  for (int i = 0; i < 26; i++)
    for (int j = 0; j < 26; j++) {
      a[i][j] = i + j;
      b[i][j] = i - j;
    }
  for (int i = 0; i < 26; i++)
    for (int j = 0; j < 26; j++) {
      int sum = 0;
      for (int k = 0; k < 26; k++)
        sum += a[i][k] * b[k][j];
      c[i][j] = sum;
    }
  return c[3][5] & 255;
}

unsigned char text[4096];
int count[256];
int main(void) {
  unsigned x = 1;
  for (int i = 0; i < 4096; i++) {
    x = x * 1103515245u + 12345u;
    text[i] = x >> 16;
  }
  for (int k = 0; k < 13; k++)
    for (int i = 0; i < 4096; i++)
      count[text[i]]++;
  return count[65] % 256;
}

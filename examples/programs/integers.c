int printf(const char *, ...);

int main(void) {
  unsigned char c = 250;
  c += 10;
  signed char s = (signed char)200;
  unsigned u = 0;
  u--;
  short h = (short)70000;
  long big = 1L << 40;
  _Bool b = 256;
  printf("%d %d %u %d %ld %d\n", c, s, u, h, big, b);
  printf("%d %d %d %d\n", -7 / 2, -7 % 2, -7 >> 1, 7 & ~2);
  printf("%d %d %d\n", -1 < 1u, (unsigned char)-1 == 255, 'a' + 1);
  printf("%lu %lu %lu\n", sizeof(char), sizeof 'a', sizeof(long long));
  printf("%x %x %llx\n", 0xf0u ^ 0xffu, 1u << 31, ~0ull >> 4);
  int i = 5;
  i <<= 2;
  i |= 3;
  i %= 8;
  printf("%d %d\n", i, 1 ? -1 : 0);
  return (int)(u % 251);
}

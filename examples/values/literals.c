int printf(const char *, ...);
// Each directive asks for just the type of its constant (7.21.6.1p9), but for its sign, which stands behind: -1 of an unsigned type is positive.
int main(void) {
  // 6.4.4.1p5: the first type of the list that holds the value
  printf("%d%c\n", 0, 0 * 0 - 1 < 0 ? 's' : 'u');
  printf("%d%c\n", 7, 7 * 0 - 1 < 0 ? 's' : 'u');
  printf("%d%c\n", 00, 00 * 0 - 1 < 0 ? 's' : 'u');
  printf("%d%c\n", 017, 017 * 0 - 1 < 0 ? 's' : 'u');
  printf("%d%c\n", 0x1F, 0x1F * 0 - 1 < 0 ? 's' : 'u');
  printf("%d%c\n", 0XaBc, 0XaBc * 0 - 1 < 0 ? 's' : 'u');
  printf("%d%c\n", 2147483647, 2147483647 * 0 - 1 < 0 ? 's' : 'u');
  printf("%ld%c\n", 2147483648, 2147483648 * 0 - 1 < 0 ? 's' : 'u');
  printf("%d%c\n", 0x7fffffff, 0x7fffffff * 0 - 1 < 0 ? 's' : 'u');
  printf("%u%c\n", 0x80000000, 0x80000000 * 0 - 1 < 0 ? 's' : 'u');
  printf("%u%c\n", 037777777777, 037777777777 * 0 - 1 < 0 ? 's' : 'u');
  printf("%ld%c\n", 4294967296, 4294967296 * 0 - 1 < 0 ? 's' : 'u');
  printf("%ld%c\n", 0x100000000, 0x100000000 * 0 - 1 < 0 ? 's' : 'u');
  printf("%ld%c\n", 9223372036854775807, 9223372036854775807 * 0 - 1 < 0 ? 's' : 'u');
  printf("%lu%c\n", 0x8000000000000000, 0x8000000000000000 * 0 - 1 < 0 ? 's' : 'u');
  printf("%lu%c\n", 01777777777777777777777, 01777777777777777777777 * 0 - 1 < 0 ? 's' : 'u');
  printf("%lu%c\n", 18446744073709551615u, 18446744073709551615u * 0 - 1 < 0 ? 's' : 'u');
  printf("%u%c\n", 1u, 1u * 0 - 1 < 0 ? 's' : 'u');
  printf("%u%c\n", 4294967295U, 4294967295U * 0 - 1 < 0 ? 's' : 'u');
  printf("%lu%c\n", 4294967296U, 4294967296U * 0 - 1 < 0 ? 's' : 'u');
  printf("%ld%c\n", 1l, 1l * 0 - 1 < 0 ? 's' : 'u');
  printf("%lu%c\n", 0x8000000000000000L, 0x8000000000000000L * 0 - 1 < 0 ? 's' : 'u');
  printf("%lu%c\n", 1uL, 1uL * 0 - 1 < 0 ? 's' : 'u');
  printf("%lu%c\n", 1Lu, 1Lu * 0 - 1 < 0 ? 's' : 'u');
  printf("%lld%c\n", 1ll, 1ll * 0 - 1 < 0 ? 's' : 'u');
  printf("%llu%c\n", 0xffffffffffffffffLL, 0xffffffffffffffffLL * 0 - 1 < 0 ? 's' : 'u');
  printf("%llu%c\n", 1ULL, 1ULL * 0 - 1 < 0 ? 's' : 'u');
  printf("%llu%c\n", 1llU, 1llU * 0 - 1 < 0 ? 's' : 'u');
  // 6.4.4.4, of a char that is signed
  printf("%d %zu\n", 'a', sizeof 'a');
  printf("%d %zu\n", '"', sizeof '"');
  printf("%d %zu\n", '\'', sizeof '\'');
  printf("%d %zu\n", '\"', sizeof '\"');
  printf("%d %zu\n", '\?', sizeof '\?');
  printf("%d %zu\n", '\\', sizeof '\\');
  printf("%d %zu\n", '\a', sizeof '\a');
  printf("%d %zu\n", '\b', sizeof '\b');
  printf("%d %zu\n", '\f', sizeof '\f');
  printf("%d %zu\n", '\n', sizeof '\n');
  printf("%d %zu\n", '\r', sizeof '\r');
  printf("%d %zu\n", '\t', sizeof '\t');
  printf("%d %zu\n", '\v', sizeof '\v');
  printf("%d %zu\n", '\0', sizeof '\0');
  printf("%d %zu\n", '\101', sizeof '\101');
  printf("%d %zu\n", '\377', sizeof '\377');
  printf("%d %zu\n", '\x41', sizeof '\x41');
  printf("%d %zu\n", '\x0000000000000000000080', sizeof '\x0000000000000000000080');
  // 6.4.5p6: the bytes, and a zero behind them
  printf("%s %zu\n", "", sizeof "");
  printf("%s %zu\n", "ab", sizeof "ab");
  printf("%s %zu\n", "it's", sizeof "it's");
  printf("%s %zu\n", "\x41g", sizeof "\x41g");
  printf("%s %zu\n", "\1012", sizeof "\1012");
  printf("%s %zu\n", "\60\061", sizeof "\60\061");
  printf("%s %zu\n", "a\tb\\", sizeof "a\tb\\");
  return 0;
}

int main(void) {
  char s[] = "ab";
  s[0] = 'c';
  return 0;
}

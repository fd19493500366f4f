int printf(const char *, ...);

int main(void) {
  printf("[%d] [%5d] [%-5d] [%05d] [%+d] [% d]\n", 42, 42, 42, 42, 42, 42);
  printf("[%i] [%u] [%o] [%x] [%X] [%#o] [%#x] [%#X]\n", -7, 7u, 8u, 255u, 255u, 8u, 255u, 255u);
  printf("[%.3d] [%8.3d] [%-8.3d] [%.0d] [%08.3d]\n", 5, 5, 5, 0, 5);
  printf("[%ld] [%lu] [%lld] [%llx] [%hd] [%hhd] [%hhu]\n", -1L, 1UL, -9LL, 0xfULL, (short)-2, (signed char)-3, (unsigned char)200);
  printf("[%zu] [%jd] [%td] [%*d] [%-*d] [%.*d]\n", sizeof(int), 3L, 4L, 6, 1, 6, 2, 4, 3);
  printf("[%c] [%5c] [%-5c] [%s] [%10s] [%-10s] [%.2s] [%%]\n", 'x', 'y', 'z', "str", "right", "left", "cut");
  int n = printf("%s", "");
  return n;
}

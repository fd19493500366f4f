union { char bytes[64]; long longs[8]; int ints[16]; } arena;
long *p = (long *)arena.bytes;
int *q = (int *)(arena.bytes + 12);
int main(void) {
  p[0] = 3;
  *q = 4;
  return (int)p[0] + *q;
}

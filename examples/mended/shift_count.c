int main(void) {
  return 1L << 32 == 4294967296L;
}

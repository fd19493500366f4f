int main(void) {
  int i = 1;
  i++;
  return i;
}

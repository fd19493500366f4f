int main(void) {
  char s[] = ("abc");
  return sizeof s;
}

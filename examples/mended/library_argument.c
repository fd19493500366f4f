unsigned long strlen(const char *);
int main(void) {
  return (int)strlen("");
}

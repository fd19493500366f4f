void exit(int);
int puts(const char *);

static void leave(int depth) {
  if (depth == 0) {
    puts("leaving");
    exit(7);
  }
  leave(depth - 1);
}

int main(void) {
  leave(5);
  puts("not reached");
  return 0;
}

struct T { struct { int a, b[2]; } u; int c; };
int main(void) {
  struct T v =
    {.u.b[1] = 1, .c = 2, .u = {.a = 3}};
  return v.c;
}

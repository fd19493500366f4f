int printf(const char *, ...);
void *memcpy(void *, const void *, unsigned long);

struct point { int x, y; };
struct shape {
  enum { DOT = 1, BOX, RING } kind;
  union {
    struct point dot;
    struct { struct point low, high; } box;
    struct { struct point centre; unsigned char radius; };
  } u;
  char name[6];
};

static struct point middle(struct point a, struct point b) {
  struct point m = {(a.x + b.x) / 2, (a.y + b.y) / 2};
  return m;
}

static struct shape box(int x0, int y0, int x1, int y1) {
  struct shape s = {.kind = BOX, .u.box = {{x0, y0}, {x1, y1}}, .name = "box"};
  return s;
}

static int area(const struct shape *s) {
  switch (s->kind) {
  case DOT:
    return 1;
  case BOX:
    return (s->u.box.high.x - s->u.box.low.x) * (s->u.box.high.y - s->u.box.low.y);
  case RING:
    return 3 * s->u.radius * s->u.radius;
  }
  return 0;
}

int main(void) {
  struct shape list[3] = {{DOT, {{3, 4}}, "dot"}};
  list[1] = box(1, 2, 11, 22);
  struct shape ring;
  ring.kind = RING;
  ring.u.centre = middle(list[1].u.box.low, list[1].u.box.high);
  ring.u.radius = 5;
  memcpy(ring.name, "ring", 5);
  list[2] = ring;
  int sum = 0;
  for (int i = 0; i < 3; i++) {
    printf("%s %d\n", list[i].name, area(&list[i]));
    sum += area(list + i);
  }
  printf("%d %d %d\n", middle(list[1].u.box.low, list[1].u.box.high).y, ring.u.centre.x, list[0].u.dot.y);
  return sum;
}

typedef unsigned long size_t;
void *calloc(size_t, size_t);
void *malloc(size_t);
void free(void *);
int strcmp(const char *, const char *);
int printf(const char *, ...);

struct entry {
  const char *key;
  int count;
  struct entry *next;
};

struct table {
  size_t size;
  struct entry **slots;
};

static unsigned hash(const char *s) {
  unsigned h = 2166136261u;
  while (*s) {
    h ^= (unsigned char)*s++;
    h *= 16777619u;
  }
  return h;
}

static struct entry *lookup(struct table *t, const char *key) {
  size_t at = hash(key) % t->size;
  for (struct entry *e = t->slots[at]; e; e = e->next)
    if (strcmp(e->key, key) == 0) return e;
  struct entry *e = malloc(sizeof *e);
  if (!e) return 0;
  e->key = key;
  e->count = 0;
  e->next = t->slots[at];
  t->slots[at] = e;
  return e;
}

int main(void) {
  static const char *const text[] = {"the", "cat", "the", "dog", "a", "cat", "the", "end"};
  struct table t = {7, 0};
  t.slots = calloc(t.size, sizeof *t.slots);
  if (!t.slots) return 1;
  for (size_t i = 0; i < sizeof text / sizeof text[0]; i++) {
    struct entry *e = lookup(&t, text[i]);
    if (e) e->count++;
  }
  struct entry *the = lookup(&t, "the"), *cat = lookup(&t, "cat"), *none = lookup(&t, "bird");
  int result = 0;
  if (the && cat && none) {
    printf("the %d, cat %d, bird %d\n", the->count, cat->count, none->count);
    result = the->count * 10 + cat->count;
  }
  for (size_t i = 0; i < t.size; i++)
    for (struct entry *e = t.slots[i]; e;) {
      struct entry *next = e->next;
      free(e);
      e = next;
    }
  free(t.slots);
  return result;
}

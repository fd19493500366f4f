typedef unsigned long size_t;
void *malloc(size_t); void free(void *); int getchar(void); int printf(const char *, ...);
struct node { int v; struct node *next; };
int main(void) {
  struct node *head = 0; int c = getchar();
  while (c != -1) {
    if (c >= '0' && c <= '9') {
      int v = 0;
      while (c >= '0' && c <= '9') { v = v * 10 + (c - '0'); c = getchar(); }
      struct node *n = malloc(sizeof(struct node));
      if (!n) return 1;
      n->v = v; n->next = head; head = n;
    } else c = getchar();
  }
  long sum = 0; int k = 0;
  while (head) { struct node *n = head; sum += n->v; k++; head = n->next; free(n); }
  printf("%d numbers, sum %ld\n", k, sum);
  return 0;
}

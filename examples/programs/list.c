typedef unsigned long size_t;
void *malloc(size_t);
void free(void *);
int printf(const char *, ...);

struct node {
  int value;
  struct node *next;
};

static struct node *push(struct node *head, int value) {
  struct node *n = malloc(sizeof *n);
  if (!n) return head;
  n->value = value;
  n->next = head;
  return n;
}

static struct node *reverse(struct node *head) {
  struct node *done = 0;
  while (head) {
    struct node *next = head->next;
    head->next = done;
    done = head;
    head = next;
  }
  return done;
}

int main(void) {
  struct node *head = 0;
  for (int i = 1; i <= 10; i++) head = push(head, i * i);
  head = reverse(head);
  int sum = 0;
  for (struct node *n = head; n; n = n->next) {
    printf("%d ", n->value);
    sum += n->value;
  }
  printf("= %d\n", sum);
  while (head) {
    struct node *next = head->next;
    free(head);
    head = next;
  }
  return sum % 256;
}

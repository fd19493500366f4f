int printf(const char *, ...);

static int classify(int n) {
  switch (n % 7) {
  case 0:
    return 10;
  case 1:
  case 2:
    n += 5;
    /* falls through */
  case 3:
    n *= 2;
    break;
  default:
    n = -n;
  }
  return n;
}

static int duff(int count) {
  int steps = 0;
  int turns = (count + 3) / 4;
  switch (count % 4) {
  case 0:
    do {
      steps++;
  case 3:
      steps++;
  case 2:
      steps++;
  case 1:
      steps++;
    } while (--turns > 0);
  }
  return steps;
}

static int search(int target) {
  int found = -1;
  for (int i = 0; i < 10; i++)
    for (int j = 0; j < 10; j++) {
      int product = i * j;
      if (product == target) {
        found = i * 100 + j;
        goto done;
      }
      if (product > target) break;
      if (j % 2) continue;
      found--;
    }
done:
  return found;
}

static int into(int n) {
  int k = 0;
  if (n > 2) goto inside;
  while (k < 3) {
    int t;
  inside:
    t = n + k;
    k = t > 100 ? 3 : k + 1;
    n += t;
  }
  return n;
}

int main(void) {
  for (int i = 0; i < 8; i++) printf("%d ", classify(i));
  printf("%d %d %d %d\n", duff(1), duff(6), duff(8), duff(11));
  printf("%d %d %d\n", search(12), search(63), search(999));
  printf("%d %d\n", into(1), into(5));
  int i = 0;
  do {
    if (i == 3) continue;
    if (i == 6) break;
  } while (i++ < 100);
  return i;
}

// Shortest ways from one town to all, by relaxing roads until nothing changes: old/route.c. Under WAW a chunk may read
// an old way; what it misses a later turn mends, and the answer is the same.
struct road { long to, length; struct road *next; };
struct road *roads[60];
long way[60];
void add(long from, long to, long length) {
  struct road *r = calloc(1, sizeof(struct road));
  r->to = to;
  r->length = length;
  r->next = roads[from];
  roads[from] = r;
}
int main(void) {
  long changed = 1, sum = 0;
  for (long t = 0; t < 60; t++) {
    add(t, (t + 1) % 60, 7);
    add(t, t * 13 % 60, 3 + t % 5);
    add(t, (t * t + 4) % 60, 19);
    way[t] = 1000000;
  }
  way[0] = 0;
  while (changed) {
    changed = 0;
#pragma alter WAW OutOfOrder reduce(|: changed)
    for (long t = 0; t < 60; t++)
      for (struct road *r = roads[t]; r; r = r->next)
        if (way[t] + r->length < way[r->to]) {
          way[r->to] = way[t] + r->length;
          changed |= 1;
        }
  }
  for (long t = 0; t < 60; t++) sum += way[t];
  printf("%ld %ld %ld\n", way[1], way[59], sum);
  return 0;
}

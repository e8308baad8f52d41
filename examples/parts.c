// The parts of a graph: each node takes the least number among its neighbours until nothing changes.
// An iteration may see an old number of a neighbour; then a later sweep mends it.
#include <stdio.h>
long label[60], from[80], to[80], changed;
int main(void) {
  long nodes = 60, edges = 80, parts = 0;
  for (long i = 0; i < nodes; i++) label[i] = i;
  for (long e = 0; e < edges; e++) {
    from[e] = (e * 37 + 11) % nodes;
    to[e] = (from[e] + e % 4 * 15) % nodes;
  }
  changed = 1;
  while (changed) {
    changed = 0;
#pragma alter WAW OutOfOrder reduce(|: changed)
    for (long e = 0; e < edges; e++) {
      long a = label[from[e]], b = label[to[e]];
      if (a < b) { label[to[e]] = a; changed |= 1; }
      if (b < a) { label[from[e]] = b; changed |= 1; }
    }
  }
  for (long i = 0; i < nodes; i++) if (label[i] == i) parts++;
  printf("%ld parts\n", parts);
  return 0;
}

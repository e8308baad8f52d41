// How many ways there are to put n queens on a board: an iteration puts the first, and a function the rest.
#include <stdio.h>
long place(long n, long row, long columns, long down, long up) {
  long ways = 0;
  if (row == n) return 1;
  for (long c = 0; c < n; c++) {
    long column = 1 << c, d = 1 << (row + c), u = 1 << (row - c + n);
    if ((columns & column) == 0 && (down & d) == 0 && (up & u) == 0)
      ways += place(n, row + 1, columns | column, down | d, up | u);
  }
  return ways;
}
int main(void) {
  long n = 7, ways = 0;
#pragma alter RAW OutOfOrder reduce(+: ways)
  for (long c = 0; c < n; c++) ways += place(n, 1, 1 << c, 1 << c, 1 << (n - c));
  printf("%ld queens: %ld ways\n", n, ways);
  return 0;
}

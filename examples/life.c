// Conway's game of life on a torus, from one grid into another, a row an iteration.
#include <stdio.h>
long now[16][16], next[16][16];
long around(long r, long c) {
  long sum = 0;
  for (long dr = 0; dr < 3; dr++)
    for (long dc = 0; dc < 3; dc++)
      if (dr != 1 || dc != 1) sum += now[(r + dr + 15) % 16][(c + dc + 15) % 16];
  return sum;
}
int main(void) {
  long n = 16;
  now[1][2] = 1; now[2][3] = 1; now[3][1] = 1; now[3][2] = 1; now[3][3] = 1;
  for (long step = 0; step < 8; step++) {
#pragma alter RAW OutOfOrder
    for (long r = 0; r < n; r++)
      for (long c = 0; c < 16; c++) {
        long k = around(r, c);
        next[r][c] = k == 3 || (k == 2 && now[r][c]);
      }
    for (long r = 0; r < n; r++)
      for (long c = 0; c < 16; c++) now[r][c] = next[r][c];
  }
  for (long r = 0; r < 8; r++) {
    for (long c = 0; c < 8; c++) printf("%ld", now[r][c]);
    printf("\n");
  }
  return 0;
}

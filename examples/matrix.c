// Multiplies two matrices, a row an iteration.
#include <stdio.h>
long a[24][24], b[24][24], c[24][24];
int main(void) {
  long n = 24, trace = 0;
  for (long i = 0; i < n; i++)
    for (long j = 0; j < n; j++) {
      a[i][j] = i * 3 + j;
      b[i][j] = i - j * 2;
    }
#pragma alter RAW OutOfOrder reduce(+: trace)
  for (long i = 0; i < n; i++) {
    for (long j = 0; j < n; j++) {
      long s = 0;
      for (long k = 0; k < n; k++) s += a[i][k] * b[k][j];
      c[i][j] = s;
    }
    trace += c[i][i];
  }
  printf("%ld %ld %ld\n", c[0][0], c[23][5], trace);
  return 0;
}

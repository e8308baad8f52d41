// The set of Mandelbrot in whole numbers, a row an iteration. The rows come out in order.
#include <stdio.h>
int main(void) {
  long rows = 17, sum = 0;
#pragma alter RAW InOrder reduce(^: sum)
  for (long r = 0; r < rows; r++) {
    for (long c = 0; c < 40; c++) {
      long x = 0, y = 0, n = 0, a = c * 300 / 4 - 2200, b = r * 150 - 1200;
      while (n < 30 && x * x + y * y < 4000000) {
        long t = (x * x - y * y) / 1000 + a;
        y = 2 * x * y / 1000 + b;
        x = t;
        n++;
      }
      if (n == 30) printf("*");
      else if (n > 5) printf("+");
      else printf(".");
      sum ^= n * (r * 40 + c);
    }
    printf("\n");
  }
  printf("%ld\n", sum);
  return 0;
}

// The longest Collatz chain that begins below n.
#include <stdio.h>
int length(long k) {
  long steps = 1;
  while (k != 1) {
    if (k % 2 == 0) k = k / 2;
    else k = 3 * k + 1;
    steps++;
  }
  return steps;
}
int main(void) {
  long n = 1000, longest = 0, total = 0;
#pragma alter FULL InOrder reduce(max: longest) reduce(+: total)
  for (long i = 0; i < n; i++) {
    long steps = length(i + 1);
    longest = max(longest, steps);
    total += steps;
  }
  printf("longest %ld, total %ld\n", longest, total);
  return 0;
}

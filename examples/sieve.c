// Counts the primes below n: each iteration tries the divisors of one number.
#include <stdio.h>
int main(void) {
  long n = 3000, primes = 0, last = 0;
#pragma alter RAW OutOfOrder reduce(+: primes) reduce(max: last)
  for (long i = 0; i < n; i++) {
    long k = i + 2, prime = 1;
    for (long d = 2; d * d <= k; d++)
      if (k % d == 0) { prime = 0; break; }
    if (prime) { primes += 1; last = max(last, k); }
  }
  printf("%ld primes, the last is %ld\n", primes, last);
  return 0;
}

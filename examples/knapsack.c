// The 0/1 knapsack, row by row: old/knapsack.c without its macros and prototype. The columns of a row run in chunks:
// each reads the row before and writes a word of its own, so no policy finds a conflict.
long weight[24], value[24];
long best[25][301];
long choose(long item, long room) {
  long without = best[item - 1][room];
  if (weight[item - 1] > room) return without;
  return max(without, best[item - 1][room - weight[item - 1]] + value[item - 1]);
}
int main(void) {
  for (long i = 0; i < 24; i++) {
    weight[i] = 5 + i * 7 % 31;
    value[i] = 3 + i * 11 % 37;
  }
  long columns = 301;
  for (long i = 1; i <= 24; i++) {
#pragma alter WAW OutOfOrder
    for (long r = 0; r < columns; r++) best[i][r] = choose(i, r);
  }
  long r = 300;
  for (long i = 24; i > 0; i--)
    if (best[i][r] != best[i - 1][r]) {
      printf("item %ld\n", i - 1);
      r -= weight[i - 1];
    }
  printf("value %ld, room left %ld\n", best[24][300], r);
  return 0;
}

// Shortest paths between all pairs (Floyd and Warshall). The rows of one step depend on row k alone, which the step leaves as it is.
#include <stdio.h>
long dist[20][20];
int main(void) {
  long n = 20, sum = 0;
  for (long i = 0; i < n; i++)
    for (long j = 0; j < n; j++) {
      dist[i][j] = 1000000;
      if (i == j) dist[i][j] = 0;
      if ((i * 7 + 3) % n == j) dist[i][j] = i % 5 + 1;
      if ((i + 1) % n == j) dist[i][j] = 9;
    }
  for (long k = 0; k < n; k++) {
#pragma alter WAW OutOfOrder
    for (long i = 0; i < n; i++)
      for (long j = 0; j < n; j++)
        if (dist[i][k] + dist[k][j] < dist[i][j]) dist[i][j] = dist[i][k] + dist[k][j];
  }
  for (long i = 0; i < n; i++)
    for (long j = 0; j < n; j++) sum += dist[i][j];
  printf("%ld %ld %ld\n", dist[0][19], dist[7][3], sum);
  return 0;
}

// Heat along a rod, from one array into another. The ends stay as they are.
#include <stdio.h>
long heat[130], fresh[130];
int main(void) {
  long inner = 128, total = 0, hottest = 0;
  heat[0] = 1000000;
  heat[129] = -500000;
  for (long step = 0; step < 20; step++) {
#pragma alter FULL OutOfOrder
    for (long i = 0; i < inner; i++)
      fresh[i + 1] = (heat[i] + 2 * heat[i + 1] + heat[i + 2]) >> 2;
    for (long i = 1; i <= 128; i++) heat[i] = fresh[i];
  }
#pragma alter NONE OutOfOrder reduce(+: total) reduce(max: hottest)
  for (long i = 0; i < inner; i++) {
    total += heat[i + 1];
    hottest = max(hottest, heat[i + 1]);
  }
  printf("%ld %ld %ld\n", total, hottest, heat[5]);
  return 0;
}

// A table of hashed numbers: each iteration makes a list node of its own and puts it before its bucket's list.
// Chunks that meet in a bucket run again, so every number is there, in the order of a plain run.
#include <stdio.h>
#include <stdlib.h>
struct node { long key, count; struct node *next; };
struct node *bucket[64];
int main(void) {
  long n = 200, kinds = 0, most = 0;
#pragma alter RAW InOrder
  for (long i = 0; i < n; i++) {
    long key = i * i % 97, h = key * 31 % 64;
    struct node *p = bucket[h];
    while (p != NULL && p->key != key) p = p->next;
    if (p == NULL) {
      p = calloc(1, sizeof(struct node));
      p->key = key;
      p->next = bucket[h];
      bucket[h] = p;
    }
    p->count += 1;
  }
  for (long h = 0; h < 64; h++)
    for (struct node *p = bucket[h]; p != NULL; p = p->next) {
      kinds++;
      if (p->count > most) most = p->count;
    }
  printf("%ld kinds, the most frequent %ld times\n", kinds, most);
  return 0;
}

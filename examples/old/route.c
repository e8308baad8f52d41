/* Shortest ways from one town to all, by relaxing roads until nothing changes. */
#include <stdio.h>
#include <stdlib.h>

#define TOWNS 60
#define FAR 1000000

typedef struct road {
    int to, length;
    struct road *next;
} Road;

static Road *roads[TOWNS];
static int way[TOWNS];

static void add(int from, int to, int length)
{
    Road *r = (Road *)malloc(sizeof(Road));

    r->to = to;
    r->length = length;
    r->next = roads[from];
    roads[from] = r;
}

int main(void)
{
    int t, changed, sum = 0;
    Road *r;

    for (t = 0; t < TOWNS; t++) {
        add(t, (t + 1) % TOWNS, 7);
        add(t, t * 13 % TOWNS, 3 + t % 5);
        add(t, (t * t + 4) % TOWNS, 19);
        way[t] = FAR;
    }
    way[0] = 0;
    do {
        changed = 0;
        for (t = 0; t < TOWNS; t++)
            for (r = roads[t]; r; r = r->next)
                if (way[t] + r->length < way[r->to]) {
                    way[r->to] = way[t] + r->length;
                    changed = 1;
                }
    } while (changed);
    for (t = 0; t < TOWNS; t++)
        sum += way[t];
    printf("%d %d %d\n", way[1], way[TOWNS - 1], sum);
    return 0;
}

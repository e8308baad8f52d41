/* The 0/1 knapsack, row by row. */
#include <stdio.h>

#define ITEMS 24
#define ROOM 300
#define MAX(a, b) ((a) > (b) ? (a) : (b))

static int weight[ITEMS], value[ITEMS];
static int best[ITEMS + 1][ROOM + 1];

static int choose(int item, int room);

int main(void)
{
    register int i, r;

    for (i = 0; i < ITEMS; i++) {
        weight[i] = 5 + i * 7 % 31;
        value[i] = 3 + i * 11 % 37;
    }
    for (i = 1; i <= ITEMS; i++)
        for (r = 0; r <= ROOM; r++)
            best[i][r] = choose(i, r);
    for (r = ROOM, i = ITEMS; i > 0; i--)
        if (best[i][r] != best[i - 1][r]) {
            printf("item %d\n", i - 1);
            r -= weight[i - 1];
        }
    printf("value %d, room left %d\n", best[ITEMS][ROOM], r);
    return 0;
}

static int choose(int item, int room)
{
    int without = best[item - 1][room];

    if (weight[item - 1] > room)
        return without;
    return MAX(without, best[item - 1][room - weight[item - 1]] + value[item - 1]);
}

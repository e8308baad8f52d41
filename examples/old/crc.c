/* CRC-32 of blocks of bytes, by a table. */
#include <stdio.h>

#define POLYNOMIAL 0xEDB88320U
#define BLOCKS 48
#define BYTES 64

static unsigned int table[256];
static unsigned char data[BLOCKS][BYTES];

static void make_table(void)
{
    unsigned int c;
    int n, k;

    for (n = 0; n < 256; n++) {
        c = n;
        for (k = 0; k < 8; k++)
            c = (c & 1) ? POLYNOMIAL ^ (c >> 1) : c >> 1;
        table[n] = c;
    }
}

static unsigned int crc(const unsigned char *p, int n)
{
    unsigned int c = 0xFFFFFFFFU;

    while (n-- > 0)
        c = table[(c ^ *p++) & 0xFF] ^ (c >> 8);
    return c ^ 0xFFFFFFFFU;
}

int main(void)
{
    unsigned int seed = 1, all = 0;
    int b, i;

    make_table();
    for (b = 0; b < BLOCKS; b++)
        for (i = 0; i < BYTES; i++) {
            seed = seed * 1103515245U + 12345U;
            data[b][i] = (seed >> 16) & 0xFF;
        }
    for (b = 0; b < BLOCKS; b++)
        all ^= crc(data[b], BYTES);
    printf("%u\n", all);
    return 0;
}

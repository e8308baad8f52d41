// CRC-32 of blocks of bytes, by a table: old/crc.c, where an unsigned int has 32 bits and a mask keeps it so. The
// blocks run in chunks, and a reduction gathers their sums.
long table[256];
long data[48][64];
void make_table(void) {
  for (long n = 0; n < 256; n++) {
    long c = n;
    for (long k = 0; k < 8; k++)
      if (c & 1) c = 0xEDB88320 ^ (c >> 1); else c = c >> 1;
    table[n] = c;
  }
}
long crc(long *p, long n) {
  long c = 0xFFFFFFFF;
  for (long i = 0; i < n; i++) c = table[(c ^ p[i]) & 0xFF] ^ (c >> 8);
  return c ^ 0xFFFFFFFF;
}
int main(void) {
  long seed = 1, all = 0;
  make_table();
  for (long b = 0; b < 48; b++)
    for (long i = 0; i < 64; i++) {
      seed = (seed * 1103515245 + 12345) & 0xFFFFFFFF;
      data[b][i] = (seed >> 16) & 0xFF;
    }
#pragma alter WAW OutOfOrder reduce(^: all)
  for (long b = 0; b < 48; b++) all ^= crc(data[b], 64);
  printf("%ld\n", all);
  return 0;
}

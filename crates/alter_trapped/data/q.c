int main(void) {
  int zero = 0;
  printf("%ld\n", 2 + 3);
  return 1 / zero;
}

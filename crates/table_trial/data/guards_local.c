int main(void) {
  int x;
  if (x) x = 1;
  if (!x) x = 5;
  if (x == 5) return 1;
  return 0;
}

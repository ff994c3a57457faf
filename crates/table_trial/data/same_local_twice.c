int main(void) {
  int x;
  if (x < x) return 1;
  if (x <= x) return 2;
  return 3;
}

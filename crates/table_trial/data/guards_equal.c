int main(void) {
  int x, y;
  if (x != 0) ; else return x;
  if (y == 4) {
    if (x == y) return x;
  }
  if (y < 1) if (y > -1) return y;
  return 100;
}

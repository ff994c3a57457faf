int main(void) {
  int x, y;
  if (x >= 0 && x <= 10) {
    if (y >= 5 && y <= 8) {
      if (x < y) return 1;
      else return 2;
    }
  }
  return 0;
}

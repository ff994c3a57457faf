int main(void) {
  int x;
  int y = 0;
  while (x > 0) {
    y = y + 7;
    x = x - 1;
  }
  return y;
}

int main(void) {
  int x, y = 0;
  if (x > 0) if (x > 9) y = 1; else y = 2;
  return y;
}

int main(void) {
  int x;
  if (x < 0 || x > 5) return 0;
  if (x < 3 || x > 7) x = x + 0;
  else x = 9;
  return x;
}

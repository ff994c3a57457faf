int main(void) {
  int x;
  if (!(x > 4)) {
    if (!(x < 2 || x == 3)) return x;
    return 7;
  }
  return x;
}

int main(void) {
  int x;
  int y = 0;
  if (x < 3) y = 1;
  else y = 2;
  return y;
}

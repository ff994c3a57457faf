int main(void) {
  int r = 0;
  for (int i = 0, j = 4; i < j; i++) r = j;
  return r;
}

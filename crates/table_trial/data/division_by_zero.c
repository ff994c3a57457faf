int main(void) {
  int x = 1;
  int y = x / 0;
  return y;
}

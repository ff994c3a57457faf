int g = 1;
int main(void) {
  int x = g + g;
  int y = g * 2;
  g++;
  g += x;
  return 0;
}

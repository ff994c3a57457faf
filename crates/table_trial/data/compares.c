int main(void) {
  int x = 3;
  int a = x < 4, b = x <= 2, c = x > 3, d = x >= 3;
  int e = x == 3, f = x != 3;
  int g = !x, h = !0, i = -x, j = + x;
  return a + b;
}

int main(void) {
  int a = 7;
  int b = -3;
  int c = a + b, d = a - b, e = a * b;
  int f = a / b, g = a % b;
  int h = b / 2, i = b % 2;
  return c + d + e + f + g + h + i;
}

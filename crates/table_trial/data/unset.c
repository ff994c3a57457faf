int main(void) {
  int a;
  int b = a;
  int c = a < 5;
  int d = a % 10, e = a / 10;
  return d;
}

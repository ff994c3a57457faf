int main(void) {
  long a;
  long b = a % 100;
  int c = b;
  long d = -a;
  int e = a > 0;
  return c;
}

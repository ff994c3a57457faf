int f(int a, int b, int c) { return c; }
int main(void) {
  int p = f(0, 1, 5);
  int q = f(0, 1, 0);
  return p;
}

int f(int a, int b) { return a - b; }
int main(void) {
  int p = f(0, 0), q = f(0, 1), r = f(1, 0), s = f(7, 1), t = f(1, 7), u = f(8, 9);
  return p;
}

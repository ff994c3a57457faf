int f(int n) { return n; }
int main(void) {
  int x = f(1 / 0);
  return x;
}

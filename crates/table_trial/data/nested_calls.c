int inc(int n) { return n + 1; }
int main(void) {
  int x = inc(inc(inc(0)));
  return inc(x) + inc(0);
}

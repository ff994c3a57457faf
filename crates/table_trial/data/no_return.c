int f(int n) { if (n) return 1; }
long g(void) { }
int main(void) {
  int a = f(0);
  long b = g();
}

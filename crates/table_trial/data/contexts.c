int f(int n) {
  return n;
}
int main(void) {
  int a = f(0);
  int b = f(1);
  int c = f(2);
  int d = f(a + 5);
  return b;
}

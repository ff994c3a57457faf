int f(int n) { while (1) ; return n; }
int main(void) {
  int x = f(1);
  return x;
}

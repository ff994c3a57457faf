int even(int n) { return n % 2 == 0; }
int main(void) {
  int x;
  if (even(x)) return 1;
  while (even(2)) return 2;
  return 3;
}

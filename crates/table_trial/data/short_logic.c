int main(void) {
  int x;
  int a = x && 0;
  int b = x || 1;
  int c = 0 && x;
  int d = 2 && 3;
  int e = x && x;
  int f = 0 || 0;
  return a;
}

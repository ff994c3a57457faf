int g = 1;
int main(void) {
  int x;
  int a = x && g;
  int b = x || g;
  if (g && x) return a;
  return b;
}

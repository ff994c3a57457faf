int g = 3;
static int h;
long k = -4, l = 5000000000;
int main(void) {
  int x = g;
  h = x + 1;
  g = 0 - 2;
  return h;
}

int main(void) {
  int a = 2147483647;
  int b = a + 1;
  int c = -2147483647 - 1;
  int d = -c;
  int e = a * 2;
  return 0;
}

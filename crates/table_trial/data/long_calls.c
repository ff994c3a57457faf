long twice(long n) { return n * 2; }
int cut(long n) { return n; }
int main(void) {
  long a = twice(3000000000);
  int b = cut(a);
  int c = cut(6);
  return c;
}

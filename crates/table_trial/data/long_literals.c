int main(void) {
  long a = 3000000000;
  long int b = 7L;
  int c = 3000000000;
  int d = 1 + 1L;
  long e = 2147483647 + 1;
  long f = 2147483647L + 1;
  return 0;
}

int main(void) {
  long a = 9223372036854775807;
  long b = a + 1;
  long c = -9223372036854775807 - 1;
  long d = c / -1;
  int e = a;
  return 0;
}

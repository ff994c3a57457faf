int main(void) {
  long n = 0;
  while (n < 5000000000) n = n + 1;
  return 0;
}

long t = 2147483647;
int main(void) {
  long a = t + 1;
  int b = a;
  return b;
}

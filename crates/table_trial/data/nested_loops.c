int main(void) {
  int n = 0;
  for (int i = 0; i < 2; i++) {
    int j = 0;
    while (j < 3) {
      j++;
      n = 1;
    }
  }
  return n;
}

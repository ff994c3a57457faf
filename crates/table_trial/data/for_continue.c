int main(void) {
  int k = 0;
  for (int i = 0; i < 3; i++) {
    if (i == 1) continue;
    k = i;
  }
  return k;
}

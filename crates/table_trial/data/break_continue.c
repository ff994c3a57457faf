int main(void) {
  int i = 0;
  int x = 0;
  while (1) {
    i++;
    if (i < 3) continue;
    if (i > 5) break;
    x = i;
  }
  return x;
}

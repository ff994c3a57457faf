int main(void) {
  int i = 0;
  for (;;) {
    if (i == 3) break;
    i++;
  }
  for (i = 9; i > 6;) i = i - 1;
  return i;
}

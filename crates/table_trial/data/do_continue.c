int main(void) {
  int i = 0;
  do {
    if (i == 2) continue;
    if (i == 4) break;
  } while (i != 0);
  return i;
}

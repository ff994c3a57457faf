int main(void) {
  int i = 5;
  do {
    i--;
  } while (i > 0);
  return i;
}

int main(void) {
  int x = 3;
  if (x > 5) x = 1;
  if (x == 3) x = 4;
  else x = 9;
  if (1) ; else x = 8;
  return x;
}

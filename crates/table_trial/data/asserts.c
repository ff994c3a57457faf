int main(void) {
  int x;
  assert(x > 3);
  assert(x < 6 && x != 5);
  assert(1);
  return x;
}

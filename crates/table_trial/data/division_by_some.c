int main(void) {
  int z;
  int q = 10 / z;
  int r = 10 % z;
  return q + r;
}

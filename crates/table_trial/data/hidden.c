int x = 5;
int main(void) {
  int y = x;
  int x = 1;
  {
    int x = 2;
    int z = x;
    y = z;
  }
  return x;
}

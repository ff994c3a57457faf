int main(void) {
  int least;
  int most = 2147483647;
  int beyond = most + 1;
  least = least + 0;
  return beyond;
}

int a = -7;
int b = 2147483647;
int main(void) {
  a = 2;
  return 0;
}

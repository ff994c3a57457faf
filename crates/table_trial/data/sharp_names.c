int f(int a) {
  int b = a;
  { int a = 3; b = a; }
  { int a = 4; b = a; }
  return a;
}
int main(void) { return f(2); }

int g;
void set(int v) {
  if (v < 0) return;
  g = v;
}
int main(void) {
  set(4);
  set(-4);
  return g;
}

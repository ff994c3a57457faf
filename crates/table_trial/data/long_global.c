long total;
void add(int n) { total = total + n; }
int main(void) {
  add(3);
  return 0;
}

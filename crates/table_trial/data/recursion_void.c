int depth;
void down(int n) {
  depth = n;
  if (n > 0) down(n - 1);
}
int main(void) { down(1); return depth; }

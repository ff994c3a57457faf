int g = 1;
int take(int n) { g = n; return n; }
int add(int a, int b) { return a + b; }
int main(void) { return add(take(0), g); }

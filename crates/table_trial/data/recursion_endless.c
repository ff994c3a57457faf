int f(int n) { return f(n); }
int main(void) { int x = f(0); return x; }

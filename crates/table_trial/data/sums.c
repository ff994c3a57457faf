int main(void) { int a = 2; int b = a + 3; return b; }

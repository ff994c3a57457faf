int f(int n) { return n; }
void *w(void *a) { return NULL; }
int main(void) { return 0; }

int best;
int pick(int a, int b) { if (a > b) return a; return b; }
void *w(void *a) {
  best = pick(best + 2, 4);
  return;
}
int main(void) {
  pthread_t t;
  pthread_create(&t, NULL, w, NULL);
  best = pick(0, 1);
  return best;
}

int g;
void *w(void *a) { g = 1; return NULL; }
int main(void) {
  pthread_t t, u;
  pthread_create(&t, NULL, w, NULL);
  pthread_join(t, NULL);
  int x = g + g;
  return x;
}

pthread_mutex_t m = PTHREAD_MUTEX_INITIALIZER;
int g;
int read(int k) { return g + k; }
void *w(void *a) {
  g = read(1);
  return NULL;
}
int main(void) {
  pthread_t t;
  pthread_mutex_lock(&m);
  pthread_create(&t, NULL, w, NULL);
  g = read(0);
  pthread_mutex_unlock(&m);
  return 0;
}

pthread_mutex_t a = PTHREAD_MUTEX_INITIALIZER;
pthread_mutex_t b = PTHREAD_MUTEX_INITIALIZER;
int get(int k) { return k; }
int main(void) {
  int x = get(1);
  pthread_mutex_lock(&a);
  x = get(1);
  pthread_mutex_lock(&b);
  x = get(0);
  pthread_mutex_unlock(&a);
  x = get(5);
  return x;
}

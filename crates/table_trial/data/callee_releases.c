pthread_mutex_t m = PTHREAD_MUTEX_INITIALIZER;
int f(int n) { pthread_mutex_unlock(&m); return 7; }
int main(void) {
  pthread_mutex_lock(&m);
  int x = f(1);
  return x;
}

pthread_mutex_t m = PTHREAD_MUTEX_INITIALIZER;
int main(void) {
  int x;
  if (x) pthread_mutex_lock(&m);
  x = 1;
  pthread_mutex_unlock(&m);
  return x;
}

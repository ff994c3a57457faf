#include <pthread.h>

int level = 0;
pthread_mutex_t valve = PTHREAD_MUTEX_INITIALIZER;

int half(int n) {
  return n / 2;
}

void *fill(void *arg) {
  pthread_mutex_lock(&valve);
  level = half(9);
  pthread_mutex_unlock(&valve);
  return NULL;
}

int main(void) {
  pthread_t t;
  pthread_create(&t, NULL, fill, NULL);
  int seen = level;
  if (seen > 9) seen = 9;
  return seen;
}

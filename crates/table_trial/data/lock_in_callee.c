pthread_mutex_t m = PTHREAD_MUTEX_INITIALIZER;
void enter(void) { pthread_mutex_lock(&m); }
void leave(void) { pthread_mutex_unlock(&m); }
int main(void) {
  enter();
  leave();
  enter();
  return 0;
}

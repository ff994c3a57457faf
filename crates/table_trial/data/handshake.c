int ready;
int value;
void *producer(void *a) {
  value = 42;
  ready = 1;
  return NULL;
}
int main(void) {
  pthread_t t;
  pthread_create(&t, NULL, producer, NULL);
  while (!ready) ;
  int got = value;
  assert(got >= 0);
  return got;
}

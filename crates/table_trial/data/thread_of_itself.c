long n;
void *w(void *a) {
  pthread_t t;
  if (n < 3) pthread_create(&t, NULL, w, NULL);
  n = n + 1;
  return NULL;
}
int main(void) {
  pthread_t t;
  pthread_create(&t, NULL, w, NULL);
  return 0;
}

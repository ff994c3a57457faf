void *w(void *a) {
  int i;
  for (i = 0; i < 3; i++) ;
  return NULL;
}
int main(void) {
  pthread_t t;
  pthread_create(&t, NULL, w, NULL);
  pthread_create(&t, NULL, w, NULL);
}

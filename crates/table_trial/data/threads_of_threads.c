int g;
void *leaf(void *a) { g = g + 1; }
void *mid(void *a) {
  pthread_t t;
  pthread_create(&t, NULL, leaf, NULL);
  g = -1;
  return NULL;
}
int main(void) {
  pthread_t t;
  pthread_create(&t, NULL, mid, NULL);
  while (g < 2) ;
  return g;
}

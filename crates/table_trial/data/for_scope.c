int main(void) {
  int i = 7;
  for (int i = 0; i < 2; i++) ;
  return i;
}

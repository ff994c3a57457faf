int g;
int main(void) {
  while (g < 5) g = g + 1;
  return g;
}

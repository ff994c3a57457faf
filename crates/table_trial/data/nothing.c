int main(void) {
  ;
  { }
  { { ; } }
}

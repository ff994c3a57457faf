int __VERIFIER_nondet_int(void);
int main(void) {
  int x = __VERIFIER_nondet_int();
  long y = __VERIFIER_nondet_long();
  int z = __VERIFIER_nondet_long();
  int w = __VERIFIER_nondet_int() % 4 + __VERIFIER_nondet_int() % 3;
  int v = __VERIFIER_nondet_int() && x > 1;
  return w;
}

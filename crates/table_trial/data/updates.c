int main(void) {
  int x = 10;
  x += 5;
  x -= 3;
  x *= 2;
  x /= 5;
  x %= 3;
  x++;
  ++x;
  x--;
  --x;
  return x;
}

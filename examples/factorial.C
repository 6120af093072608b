int times(int a, int b) {
  int p = 0;
  while (0 < b) {
    p = p + a;
    b = b - 1;
  }
  return p;
}
int factorial(int n) {
  if (n < 2) {
    return 1;
  }
  return times(n, factorial(n - 1));
}
int digits(int n) {
  int rest = n;
  int tens = 0;
  while (9 < rest) {
    rest = rest - 10;
    tens = tens + 1;
  }
  if (0 < tens) {
    digits(tens);
  }
  putchar(48 + rest);
  return 0;
}
int main() {
  digits(factorial(5));
  putchar(10);
  return 0;
}

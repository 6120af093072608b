int sum(int n) {
  int s = 0;
  while (0 < n) {
    s = s + n;
    n = n - 1;
  }
  return s;
}
int main() {
  putchar(65);
  return sum(4);
}

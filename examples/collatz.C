int half(int n) {
  int h = 0;
  while (1 < n) {
    n = n - 2;
    h = h + 1;
  }
  return h;
}
int is_even(int n) {
  return half(n) + half(n) == n;
}
int steps(int n) {
  int count = 0;
  while (1 < n) {
    if (is_even(n)) {
      n = half(n);
    } else {
      n = n + n + n + 1;
    }
    count = count + 1;
  }
  return count;
}
int main() {
  return steps(27);
}

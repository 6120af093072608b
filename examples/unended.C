int half(int n) {
  if (n < 2) { return 0; }
  return 1 + half(n - 2) }
int main() { return half(7); }

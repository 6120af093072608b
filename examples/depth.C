int down(int n) {
  return down(n + 1);
}
int main() {
  putchar(100);
  return down(0);
}

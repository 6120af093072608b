int row(int first, int last) {
  while (first < last + 1) {
    putchar(first);
    first = first + 1;
  }
  putchar(10);
  return 0;
}
int main() {
  int last = 65;
  while (last < 70) {
    row(65, last);
    last = last + 1;
  }
  return 0;
}

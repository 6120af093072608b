int main() {
  putchar(97);
  return 2147483647 + 1;
}

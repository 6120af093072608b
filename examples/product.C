int main() {
  int six = 2 + 4;
  return six - 2 * 3;
}

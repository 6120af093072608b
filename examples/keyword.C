float half;
int main() {
  return 0;
}

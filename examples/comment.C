int main() {
  return 0; /* never ends
}

// A loop that nothing ends: each begun turn takes a tick.

int main() {
  while (0 == 0) {
  }
}

// A parameter may have the name of a function, which it hides.
int twice(int n) { return n + n; }
int apply(int twice) { return twice + 1; }
int main() { return apply(twice(3)); }

# 1 "implicit.c"
// Functions without a type give an int.

twice(int n) { return n + n; }

main()
{
    putchar('w' + twice(0) + 1);
    putchar('\n');
}

// A function without a type gives an int.

twice(int n) { return n * 2; }
static thrice(int n) { return n * 3; }

main()
{
    putchar('0' + twice(2) + thrice(1));
    return twice(4);
}

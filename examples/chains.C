// The longest chain n, n/2 or 3n+1, .. , 1 that begins below 1000; lengths that are known are kept.

const int most = 1000;
static short lengths[most];

void put_number(unsigned long n)
{
    if (n > 9)
        put_number(n / 10);
    putchar('0' + (int) (n % 10));
}

int length(unsigned long n)
{
    if (n < most && lengths[n])
        return lengths[n];
    int steps = 1 + length(n % 2 ? 3 * n + 1 : n / 2);
    if (n < most)
        lengths[n] = steps;
    return steps;
}

int main()
{
    int best = 1;
    lengths[1] = 1;
    for (int n = 2; n < most; ++n)
        if (length(n) > length(best)) {
            best = n;
            put_number(n);
            putchar(' ');
            put_number(length(n));
            putchar('\n');
        }
    return length(best);
}

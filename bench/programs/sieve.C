// Primes by crossing out.

void put(long n)
{
    if (n < 0) {
        putchar(45);
        n = -n;
    }
    if (n > 9)
        put(n / 10);
    putchar(48 + (int) (n % 10));
}

void line(long n)
{
    put(n);
    putchar(10);
}

const int most = 500;
static char crossed[most + 1];

int main()
{
    int count = 0, n;
    for (n = 2; n <= most; n++) {
        if (crossed[n])
            continue;
        count++;
        for (int m = n * n; m <= most; m += n)
            crossed[m] = 1;
    }
    for (n = most; crossed[n]; n--)
        ;
    line(n);
    return count;
}

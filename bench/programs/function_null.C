// A pointer to a function is compared with 0.

void put(long n)
{
    if (n < 0) {
        putchar(45);
        n = -n;
    }
    if (n > 9)
        put(n / 10);
    putchar(48 + (int) (n % 10));
}

void line(long n)
{
    put(n);
    putchar(10);
}

int one() { return 1; }

int main()
{
    int (*p)() = one;
    line(p == 0);
    line(p != 0);
    p = 0;
    return p == 0;
}

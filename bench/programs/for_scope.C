// A name in the head of a for lives to the end of the block around it, as in 1990; no compiler of today agrees.

void put(long n)
{
    if (n < 0) {
        putchar(45);
        n = -n;
    }
    if (n > 9)
        put(n / 10);
    putchar(48 + (int) (n % 10));
}

void line(long n)
{
    put(n);
    putchar(10);
}

int main()
{
    for (int i = 0; i < 3; i++)
        ;
    line(i);
    for (i = 5; i > 1; i -= 2)
        ;
    {
        for (int i = 9; i < 20; i += 4)
            ;
        line(i);
    }
    return i;
}

// A declaration as the statement of an if, last in its block.

void put(long n)
{
    if (n < 0) {
        putchar(45);
        n = -n;
    }
    if (n > 9)
        put(n / 10);
    putchar(48 + (int) (n % 10));
}

void line(long n)
{
    put(n);
    putchar(10);
}

int main()
{
    int n = 3;
    line(n);
    while (n < 9) {
        n++;
        if (n > 100)
            int unused = 1;
    }
    {
        if (n)
            for (int i = 0; i < 2; i++)
                n += i;
    }
    return n;
}

// exit from inside of calls.

void put(long n)
{
    if (n < 0) {
        putchar(45);
        n = -n;
    }
    if (n > 9)
        put(n / 10);
    putchar(48 + (int) (n % 10));
}

void line(long n)
{
    put(n);
    putchar(10);
}

int deep(int n)
{
    if (n == 0)
        exit(33);
    int m = deep(n - 1);
    line(m);
    return m;
}

int main()
{
    line(1);
    deep(5);
    line(2);
    return 1;
}

// Names that are hidden in blocks.

void put(long n)
{
    if (n < 0) {
        putchar(45);
        n = -n;
    }
    if (n > 9)
        put(n / 10);
    putchar(48 + (int) (n % 10));
}

void line(long n)
{
    put(n);
    putchar(10);
}

int x = 1;

int f(int x)
{
    {
        int x = 5;
        line(x);
    }
    if (x) {
        int y = x;
        {
            int x = y + 1;
            y = x * 2;
        }
        x = y;
    }
    return x;
}

int main()
{
    line(x);
    line(f(3));
    int x = 7;
    for (int i = 0; i < 2; i++) {
        int x = i;
        line(x);
    }
    while (x > 5) {
        int n = x--;
        line(n);
    }
    enum { y = 20 };
    line(x + y);
    return x;
}

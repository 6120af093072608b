// Declarations in the braces of a switch.

void put(long n)
{
    if (n < 0) {
        putchar(45);
        n = -n;
    }
    if (n > 9)
        put(n / 10);
    putchar(48 + (int) (n % 10));
}

void line(long n)
{
    put(n);
    putchar(10);
}

int f(int n)
{
    switch (n) {
        int y;
    case 1:
        y = 10;
        return y + n;
    case 2: {
        int z = 5;
        y = z * 2;
    }
    default:
        y = n;
        for (int i = 0; i < 3; i++)
            y += i;
        return y;
    }
}

int main()
{
    for (int i = 0; i < 5; i++)
        line(f(i));
    return f(2);
}

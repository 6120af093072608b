// Statements that are never reached.

void put(long n)
{
    if (n < 0) {
        putchar(45);
        n = -n;
    }
    if (n > 9)
        put(n / 10);
    putchar(48 + (int) (n % 10));
}

void line(long n)
{
    put(n);
    putchar(10);
}

int f(int n)
{
    return n;
    n = 5;
    line(n);
}

int main()
{
    for (int i = 0; i < 3; i++) {
        if (i == 1) {
            continue;
            line(99);
        }
        line(i);
        switch (i) {
            line(98);
        case 2:
            break;
            line(97);
        }
    }
    return f(6);
    int later = 3;
    return later;
}

// The comma operator, and for with several parts.

void put(long n)
{
    if (n < 0) {
        putchar(45);
        n = -n;
    }
    if (n > 9)
        put(n / 10);
    putchar(48 + (int) (n % 10));
}

void line(long n)
{
    put(n);
    putchar(10);
}

int main()
{
    int i, j, k = 0;
    for (i = 0, j = 10; i < j; i++, --j)
        k += (i, j);
    line(i);
    line(k);
    int a = (i = 3, j = i * 2, i + j);
    line(a);
    (i, j) = 77;
    line(j);
    line((line(1), line(2), 3));
    for (;;) {
        if (k-- < 30)
            break;
    }
    line(k);
    for (; k > 20; )
        k -= 3;
    return k;
}

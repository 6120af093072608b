// while, do and for with break and continue, nested.

void put(long n)
{
    if (n < 0) {
        putchar(45);
        n = -n;
    }
    if (n > 9)
        put(n / 10);
    putchar(48 + (int) (n % 10));
}

void line(long n)
{
    put(n);
    putchar(10);
}

int main()
{
    int n = 0;
    while (n < 10) {
        n++;
        if (n % 2)
            continue;
        if (n > 7)
            break;
        line(n);
    }
    do {
        n -= 3;
        if (n == 2)
            continue;
        line(n);
    } while (n > 0);
    do
        n++;
    while (n < 5);
    line(n);
    int count = 0, i;
    for (i = 0; i < 6; i++)
        for (int j = 0; j < 6; j++) {
            if (j == i)
                continue;
            if (i + j > 7)
                break;
            count += i * j;
        }
    line(count);
    line(i);
    while (1) {
        do {
            if (count-- < 20)
                break;
        } while (1);
        if (count < 10)
            break;
        count -= 4;
    }
    line(count);
    int k = 0;
    for (;;) {
        if (++k > 4)
            break;
        else
            continue;
    }
    for (;;)
        break;
    while (0)
        ;
    return k;
}

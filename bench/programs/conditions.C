// Conditions of every scalar type.

void put(long n)
{
    if (n < 0) {
        putchar(45);
        n = -n;
    }
    if (n > 9)
        put(n / 10);
    putchar(48 + (int) (n % 10));
}

void line(long n)
{
    put(n);
    putchar(10);
}

enum E { Zero, One };

int main()
{
    char c = 0;
    unsigned char u = 0;
    short s = -1;
    unsigned n = 1;
    int a[1];
    int *p = a;
    E e = One;
    int k = 0;
    if (c) k += 1;
    if (!c) k += 2;
    if (s) k += 4;
    if (n) k += 8;
    if (p) k += 16;
    if (e) k += 32;
    if (!e) k += 64;
    if (a) k += 128;
    while (u++ < 5)
        k++;
    for (p = 0; !p; p = a)
        k++;
    do
        k++;
    while (c--);
    line(k);
    line(c);
    line(e && n && p && s ? 1 : 2);
    line("text" ? 3 : 4);
    return !!k;
}

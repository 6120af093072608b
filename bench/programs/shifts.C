// Shifts of signed and unsigned values.

void put(long n)
{
    if (n < 0) {
        putchar(45);
        n = -n;
    }
    if (n > 9)
        put(n / 10);
    putchar(48 + (int) (n % 10));
}

void line(long n)
{
    put(n);
    putchar(10);
}

int main()
{
    for (int i = 0; i < 31; i += 5) {
        line(1 << i);
        line(-1 << i);
        line(-123456789 >> i);
        line(0x87654321u >> i & 0xffff);
        line((long) (0x87654321u << i));
    }
    char c = -3;
    line(c << 4);
    line(c >> 1);
    unsigned char u = 0xf0;
    line(u << 8);
    line(u >> 4);
    short s = 1;
    s <<= 14;
    line(s);
    s <<= 1;
    line(s);
    int x = 100;
    x >>= 3;
    line(x);
    return 1 << 6;
}

// Unsigned arithmetic and comparisons of mixed types.

void put(long n)
{
    if (n < 0) {
        putchar(45);
        n = -n;
    }
    if (n > 9)
        put(n / 10);
    putchar(48 + (int) (n % 10));
}

void line(long n)
{
    put(n);
    putchar(10);
}

void unsigned_line(unsigned long n)
{
    if (n > 9) {
        put(n / 10);
    }
    putchar(48 + n % 10);
    putchar(10);
}

int main()
{
    unsigned a = 0;
    long b = -1;
    line((a - 1) == b);
    line(a - 1 > 5);
    line(-1 < a);
    line(-1L < 5u);
    unsigned long l = 4000000000u;
    unsigned_line(l);
    unsigned_line(l + l);
    unsigned_line(l * 3);
    unsigned_line(l / 7);
    unsigned_line(l % 7);
    unsigned_line(l >> 3);
    unsigned_line(l << 3);
    unsigned_line(-l);
    unsigned_line(~0u);
    unsigned short h = 65535;
    line(h + 1);
    line(h * 2 < 0u);
    unsigned char c = 200;
    line(c + 100);
    line(~c);
    line(-c);
    line((unsigned char) ~c);
    line('\377' < 0);
    line(0xffffffff > 0);
    line(2147483647 < 2147483648u);
    return (int) (l % 256);
}

// Assignment with operators, steps before and behind.

void put(long n)
{
    if (n < 0) {
        putchar(45);
        n = -n;
    }
    if (n > 9)
        put(n / 10);
    putchar(48 + (int) (n % 10));
}

void line(long n)
{
    put(n);
    putchar(10);
}

int main()
{
    int i = 10;
    i += 5; line(i);
    i -= 20; line(i);
    i *= -7; line(i);
    i /= 4; line(i);
    i %= 5; line(i);
    i <<= 6; line(i);
    i >>= 2; line(i);
    i &= 0x1c; line(i);
    i |= 3; line(i);
    i ^= 0xff; line(i);
    char c = 100;
    c += 100; line(c);
    c *= 3; line(c);
    unsigned char u = 10;
    u -= 20; line(u);
    u /= 3; line(u);
    short s = 30000;
    s += s; line(s);
    unsigned n = 3;
    n -= 5; line(n > 100);
    line(i++); line(i); line(++i); line(i--); line(--i);
    line(c++); line(c); line(--c);
    int a, b, d;
    a = b = d = 7;
    line(a + b + d);
    (a = 3) += 4; line(a);
    ++(++a); line(a);
    a += b -= 2; line(a); line(b);
    int *p = &a;
    *p += 3; line(a);
    (*p)++; line(a);
    return a;
}

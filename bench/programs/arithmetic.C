// Integer operators on int, division and remainder towards zero.

void put(long n)
{
    if (n < 0) {
        putchar(45);
        n = -n;
    }
    if (n > 9)
        put(n / 10);
    putchar(48 + (int) (n % 10));
}

void line(long n)
{
    put(n);
    putchar(10);
}

int main()
{
    int a = 17, b = -5;
    line(a + b);
    line(a - b);
    line(a * b);
    line(a / b);
    line(a % b);
    line(b / 2);
    line(b % 2);
    line(-a / b);
    line(-a % b);
    line(~a);
    line(!a + !0 * 2);
    line(+b);
    line(- -b);
    line(a & 12);
    line(a | 12);
    line(a ^ 12);
    line((a < b) + (a > b) * 2 + (a <= 17) * 4 + (a >= 18) * 8 + (a == 17) * 16 + (a != 17) * 32);
    line(1 + 2 * 3 - 4 / 2 % 3 << 1 | 1 & 3 ^ 2);
    return a * 3 % 7;
}

// Factorials of many digits in an array.

void put(long n)
{
    if (n < 0) {
        putchar(45);
        n = -n;
    }
    if (n > 9)
        put(n / 10);
    putchar(48 + (int) (n % 10));
}

void line(long n)
{
    put(n);
    putchar(10);
}

short digits[80];
int used = 1;

void times(int n)
{
    int carry = 0;
    for (int i = 0; i < used; i++) {
        carry += digits[i] * n;
        digits[i] = carry % 10;
        carry /= 10;
    }
    while (carry) {
        digits[used++] = carry % 10;
        carry /= 10;
    }
}

int main()
{
    digits[0] = 1;
    for (int n = 2; n <= 30; n++)
        times(n);
    for (int i = used; i--; )
        putchar('0' + digits[i]);
    putchar('\n');
    return used;
}

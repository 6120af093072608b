// Casts in both forms.

void put(long n)
{
    if (n < 0) {
        putchar(45);
        n = -n;
    }
    if (n > 9)
        put(n / 10);
    putchar(48 + (int) (n % 10));
}

void line(long n)
{
    put(n);
    putchar(10);
}

int main()
{
    int n = 1000;
    line((char) n);
    line(char(n));
    line((unsigned char) n + short(70000));
    line(unsigned(-1) > 5);
    line((int) 'x' + int('y'));
    line(long(n) * (long) n);
    int a[4];
    void *v = (void *) a;
    int *p = (int *) v;
    *p = 3;
    line(a[0]);
    const int *c = a;
    int *q = (int *) c;
    *q = 4;
    line(a[0]);
    (void) n;
    (void) (n = 5);
    line(n);
    int *null = (int *) 0;
    line(null == 0);
    line((unsigned short) -1);
    line(int());
    return (unsigned char) -7;
}

// Lists and strings that start local arrays.

void put(long n)
{
    if (n < 0) {
        putchar(45);
        n = -n;
    }
    if (n > 9)
        put(n / 10);
    putchar(48 + (int) (n % 10));
}

void line(long n)
{
    put(n);
    putchar(10);
}

int main()
{
    int a[3] = { 1, 2, 3 };
    int b[5] = { 4, 5 };
    int c[] = { 6, 7, 8, 9 };
    int d[2][3] = { { 1, 2, 3 }, { 4 } };
    int e[2][2] = { 1, 2, 3, 4 };
    char s[] = "text";
    char t[8] = "ab";
    char u[] = { 'x', 'y', 0 };
    const char *names[] = { "one", "two" };
    line(a[0] + a[1] * 10 + a[2] * 100);
    line(b[0] + b[1] + b[2] + b[3] + b[4]);
    line(sizeof c / sizeof c[0]);
    line(c[3]);
    line(d[0][2] * 10 + d[1][0] + d[1][1]);
    line(e[1][0]);
    line(sizeof s);
    line(s[3]);
    line(t[1] + t[2] + t[7]);
    line(u[0]);
    line(names[1][2]);
    int n = a[2];
    int f[2] = { n, n * n };
    line(f[1]);
    return f[0];
}

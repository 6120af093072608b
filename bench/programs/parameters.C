// Many parameters, arrays and narrow types as parameters.

void put(long n)
{
    if (n < 0) {
        putchar(45);
        n = -n;
    }
    if (n > 9)
        put(n / 10);
    putchar(48 + (int) (n % 10));
}

void line(long n)
{
    put(n);
    putchar(10);
}

int many(char a, unsigned char b, short c, unsigned short d, int e, unsigned f, long g, char *h, int i[], int j)
{
    a += 1;
    i[0] = j;
    h[0] = a;
    return a + b + c + d + e + f + g + h[0] + i[0] + j;
}

int unused(int, char, int n) { return n; }

void fill(char to[], int n, char with)
{
    while (n--)
        *to++ = with;
}

char narrow(int n) { return n; }
unsigned short half(int n) { return n; }

int main()
{
    char c[4];
    int n[2];
    line(many(300, 300, 70000, 70000, -1, 2, 3, c, n, 9));
    line(c[0]);
    line(n[0]);
    line(unused(1, 'x', 8));
    fill(c, 4, 'q');
    for (int i = 0; i < 4; i++)
        putchar(c[i]);
    putchar('\n');
    line(narrow(200));
    line(half(-1));
    line(narrow(1000) + half(100000));
    return many(0, 0, 0, 0, 0, 0, 0, c, n, 1);
}

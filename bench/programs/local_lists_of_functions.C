// Local lists of functions and of pointers.

void put(long n)
{
    if (n < 0) {
        putchar(45);
        n = -n;
    }
    if (n > 9)
        put(n / 10);
    putchar(48 + (int) (n % 10));
}

void line(long n)
{
    put(n);
    putchar(10);
}

int one() { return 1; }
int two() { return 2; }

int main()
{
    int (*all[2])() = { one, two };
    int n = 3;
    int *p[2] = { &n, 0 };
    line(all[1]());
    line(*p[0]);
    return p[1] == 0;
}

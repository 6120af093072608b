// An unsigned hash of the input.

void put(long n)
{
    if (n < 0) {
        putchar(45);
        n = -n;
    }
    if (n > 9)
        put(n / 10);
    putchar(48 + (int) (n % 10));
}

void line(long n)
{
    put(n);
    putchar(10);
}

int main()
{
    unsigned long h = 2166136261u;
    int c;
    while ((c = getchar()) != -1) {
        h ^= c;
        h *= 16777619u;
        h = h << 3 | h >> 29;
    }
    for (int i = 28; i >= 0; i -= 4)
        putchar("0123456789abcdef"[h >> i & 15]);
    putchar('\n');
    return h % 200;
}

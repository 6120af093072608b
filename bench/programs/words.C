// Words are sorted by pointers to their beginnings.

void put(long n)
{
    if (n < 0) {
        putchar(45);
        n = -n;
    }
    if (n > 9)
        put(n / 10);
    putchar(48 + (int) (n % 10));
}

void line(long n)
{
    put(n);
    putchar(10);
}

static const char *const given[] = { "pear", "apple", "fig", "plum", "grape", "figs", "app" };
const int count = sizeof given / sizeof given[0];

int before(const char *a, const char *b)
{
    while (*a && *a == *b) {
        ++a;
        ++b;
    }
    return *a < *b;
}

int main()
{
    const char *sorted[count];
    for (int i = 0; i < count; i++) {
        int j = i;
        for (; j > 0 && before(given[i], sorted[j - 1]); --j)
            sorted[j] = sorted[j - 1];
        sorted[j] = given[i];
    }
    for (const char **p = sorted; p < sorted + count; p++) {
        for (const char *s = *p; *s; ++s)
            putchar(*s);
        putchar(' ');
    }
    putchar('\n');
    return sorted[0] == given[6];
}

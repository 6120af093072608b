// Const objects, bounds by const objects, pointers to const.

void put(long n)
{
    if (n < 0) {
        putchar(45);
        n = -n;
    }
    if (n > 9)
        put(n / 10);
    putchar(48 + (int) (n % 10));
}

void line(long n)
{
    put(n);
    putchar(10);
}

const int size = 4;
const int twice_size = size * 2;
const char newline = '\n';
static const unsigned mask = ~0u >> 4;
int a[twice_size];

int count(const char *s)
{
    const char *const begin = s;
    while (*s)
        ++s;
    return s - begin;
}

int main()
{
    const int here = size + 1;
    int b[here];
    for (int i = 0; i < here; i++)
        b[i] = i;
    line(sizeof a / sizeof(int));
    line(sizeof b / sizeof(int));
    line(b[here - 1]);
    putchar(newline);
    line(mask >> 20);
    line(count("four") + count(""));
    const int *p = &size;
    line(*p);
    p = b;
    line(p[2]);
    int *const q = b;
    *q = 9;
    line(*p);
    switch (4) {
    case size:
        line(44);
    }
    return here;
}

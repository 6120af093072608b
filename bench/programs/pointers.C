// Arithmetic of pointers.

void put(long n)
{
    if (n < 0) {
        putchar(45);
        n = -n;
    }
    if (n > 9)
        put(n / 10);
    putchar(48 + (int) (n % 10));
}

void line(long n)
{
    put(n);
    putchar(10);
}

int a[10];

int sum(const int *from, const int *to)
{
    int n = 0;
    while (from != to)
        n += *from++;
    return n;
}

int main()
{
    int *p = a;
    for (int i = 0; i < 10; i++)
        *p++ = i * i;
    line(p - a);
    line(*--p);
    line(p[-2]);
    line(2[a]);
    line(*(a + 5));
    line(&a[7] - &a[3]);
    line(p > a);
    line(p == a + 9);
    line(&*p == p);
    line(sum(a, a + 10));
    line(sum(a + 3, &a[6]));
    int **q = &p;
    **q = 1;
    (*q)--;
    line(*p);
    line(a[9]);
    p -= 3;
    line(*p);
    p += 2;
    line(*p++);
    line((*p)++);
    line(*p);
    line(++*p);
    char text[8];
    char *t = text + 7;
    *t = 0;
    for (char c = 'z'; t > text; c--)
        *--t = c;
    for (; *t; ++t)
        putchar(*t);
    putchar('\n');
    void *v = a;
    int *back = (int *) v;
    line(*(back + 4));
    line(v == a);
    const int *const last = a + 9;
    return *last;
}

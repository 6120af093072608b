// Pointers to functions.

void put(long n)
{
    if (n < 0) {
        putchar(45);
        n = -n;
    }
    if (n > 9)
        put(n / 10);
    putchar(48 + (int) (n % 10));
}

void line(long n)
{
    put(n);
    putchar(10);
}

int one() { return 1; }
int two() { return 2; }
void nothing() { putchar('n'); }
int square(int n) { return n * n; }
int (*current)() = one;
int (*none)();

int (*pick(int n))() { return n ? two : one; }

int call(int (*f)(int), int n) { return f(n) + (*f)(n + 1); }

int twice(int (*f)(int), int n) { return f(f(n)); }

int main()
{
    int (*p)() = one;
    line(p());
    p = &two;
    line((*p)());
    line(current());
    current = two;
    line(current() + pick(0)());
    line(call(square, 3));
    line(twice(square, 3));
    int (*all[3])();
    all[0] = one;
    all[1] = two;
    all[2] = pick(1);
    int n = 0;
    for (int i = 0; i < 3; i++)
        n = n * 10 + all[i]();
    line(n);
    void (*v)() = nothing;
    v();
    int (**q)() = all + 1;
    line((*q)());
    line((n > 0 ? one : two)());
    if (p)
        line(5);
    if (!none)
        line(6);
    int (*out)(int) = putchar;
    out('x');
    return out('\n');
}

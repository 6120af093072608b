// Functions without a value.

void put(long n)
{
    if (n < 0) {
        putchar(45);
        n = -n;
    }
    if (n > 9)
        put(n / 10);
    putchar(48 + (int) (n % 10));
}

void line(long n)
{
    put(n);
    putchar(10);
}

int n;

void step(int by)
{
    if (by == 0)
        return;
    n += by;
}

void twice(void (*f)(int), int by)
{
    f(by);
    f(by);
}

void pass(int by) { step(by); return; }

int main()
{
    step(3);
    step(0);
    pass(4);
    twice(step, 5);
    twice(pass, 1);
    line(n);
    n ? step(1) : pass(2);
    (void) 0, step(10);
    line(n);
    ;
    { }
    {
        ;
        { step(1); }
    }
    return n;
}

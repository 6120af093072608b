// Static objects of functions.

void put(long n)
{
    if (n < 0) {
        putchar(45);
        n = -n;
    }
    if (n > 9)
        put(n / 10);
    putchar(48 + (int) (n % 10));
}

void line(long n)
{
    put(n);
    putchar(10);
}

int count()
{
    static int n;
    return ++n;
}

int next(int start)
{
    static unsigned state = 12345;
    static int calls = -1;
    if (start)
        state = start;
    calls++;
    state = state * 1103515245u + 12345u;
    return state / 65536 % 32768 + calls * 0;
}

int *cell(int i)
{
    static int cells[4] = { 1, 2, 3 };
    return cells + i;
}

int main()
{
    int i;
    for (i = 0; i < 5; i++)
        count();
    line(count());
    for (i = 0; i < 4; i++)
        line(next(0));
    line(next(7));
    *cell(3) = 10;
    *cell(0) += 1;
    line(*cell(0) + *cell(1) + *cell(3));
    {
        static int n = 4;
        n++;
        line(n);
    }
    return count();
}

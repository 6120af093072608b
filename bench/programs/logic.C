// What && || and ?: evaluate.

void put(long n)
{
    if (n < 0) {
        putchar(45);
        n = -n;
    }
    if (n > 9)
        put(n / 10);
    putchar(48 + (int) (n % 10));
}

void line(long n)
{
    put(n);
    putchar(10);
}

int calls = 0;

int yes(int n) { calls = calls * 10 + n; return 1; }
int no(int n) { calls = calls * 10 + n; return 0; }

int main()
{
    line(yes(1) && no(2) && yes(3));
    line(no(4) || yes(5) || no(6));
    line(calls);
    calls = 0;
    line(yes(1) ? no(2) : yes(3));
    line(no(1) ? no(2) : yes(3) + 5);
    line(calls);
    calls = 0;
    if (!(yes(1) && yes(2)) || no(3))
        line(1);
    else
        line(2);
    line(calls);
    int a = 1, b = 2;
    (a > b ? a : b) = 9;
    line(a * 100 + b);
    line(a == 1 ? b == 9 ? 3 : 4 : 5);
    int *p = 0;
    line(p && *p);
    line(!p);
    line(p || a);
    const char *s = a ? "yes" : "no";
    line(s[0]);
    a && (b = 4);
    line(b);
    line(1 ? 2, 3 : 4);
    return calls;
}

// Functions that call themselves and one another.

void put(long n)
{
    if (n < 0) {
        putchar(45);
        n = -n;
    }
    if (n > 9)
        put(n / 10);
    putchar(48 + (int) (n % 10));
}

void line(long n)
{
    put(n);
    putchar(10);
}

int is_odd(int n);

int is_even(int n) { return n == 0 ? 1 : is_odd(n - 1); }
int is_odd(int n) { return n == 0 ? 0 : is_even(n - 1); }

int fib(int n) { return n < 2 ? n : fib(n - 1) + fib(n - 2); }

int ackermann(int m, int n)
{
    if (m == 0)
        return n + 1;
    if (n == 0)
        return ackermann(m - 1, 1);
    return ackermann(m - 1, ackermann(m, n - 1));
}

void hanoi(int n, char from, char to, char by)
{
    if (n == 0)
        return;
    hanoi(n - 1, from, by, to);
    putchar(from);
    putchar(to);
    putchar(' ');
    hanoi(n - 1, by, to, from);
}

unsigned gcd(unsigned a, unsigned b) { return b ? gcd(b, a % b) : a; }

int main()
{
    line(is_even(40));
    line(is_odd(41));
    line(fib(15));
    line(ackermann(2, 3));
    hanoi(4, 'a', 'b', 'c');
    putchar('\n');
    line(gcd(3528, 3780));
    return fib(11);
}

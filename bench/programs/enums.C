// Enumerations: values, conversions, as bounds and labels.

void put(long n)
{
    if (n < 0) {
        putchar(45);
        n = -n;
    }
    if (n > 9)
        put(n / 10);
    putchar(48 + (int) (n % 10));
}

void line(long n)
{
    put(n);
    putchar(10);
}

enum Color { Red, Green = 5, Blue, Cyan = Green * 2 + 1, Black = -1 };
enum { Small = 3, Large = Small << 4 };
enum Flag { A = 1, B = 2, C = 4 } flags = B;

enum Local { P, Q = 5, R };

int cells[Small];

int value(Color c)
{
    switch (c) {
    case Red: return 1;
    case Green: return 2;
    case Blue: return 3;
    default: return c;
    }
}

Color next(Color c) { return Color(c == Blue ? Red : c + 1); }

int main()
{
    Local e = R;
    Color c = Green;
    line(Blue);
    line(Cyan);
    line(value(c));
    c = next(c);
    line(value(c));
    c = next(c);
    line(value(c));
    line(value(Black));
    line(Large);
    line(sizeof cells / sizeof cells[0]);
    line(flags | A | C);
    flags = (Flag) (A | C);
    line(flags);
    line(e + Q);
    line(c < Green);
    line(sizeof c);
    Color all[2];
    all[0] = Cyan;
    line(all[0] - 1);
    switch (e) { case Q: return 1; case R: return 2; }
    return 3;
}

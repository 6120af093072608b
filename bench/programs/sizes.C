// sizeof of types and expressions.

void put(long n)
{
    if (n < 0) {
        putchar(45);
        n = -n;
    }
    if (n > 9)
        put(n / 10);
    putchar(48 + (int) (n % 10));
}

void line(long n)
{
    put(n);
    putchar(10);
}

int a[3][5];
char *p;
short f(char);
enum E { X };

int main()
{
    line(sizeof(char));
    line(sizeof(short));
    line(sizeof(int));
    line(sizeof(long));
    line(sizeof(unsigned char));
    line(sizeof(char *));
    line(sizeof(int (*)(int)));
    line(sizeof a);
    line(sizeof a[0]);
    line(sizeof *a[0]);
    line(sizeof p);
    line(sizeof *p);
    line(sizeof 'a');
    line(sizeof 1);
    line(sizeof 1L);
    line(sizeof f('a'));
    line(sizeof(int[7]));
    char c = 1;
    line(sizeof(c + c));
    line(sizeof c++);
    line(c);
    line(sizeof(short) * 3 - 7 > 0);
    line(sizeof(E) + sizeof X);
    return sizeof(a) / sizeof(a[0]);
}

short f(char c) { return c; }

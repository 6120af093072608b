// Names of types.

void put(long n)
{
    if (n < 0) {
        putchar(45);
        n = -n;
    }
    if (n > 9)
        put(n / 10);
    putchar(48 + (int) (n % 10));
}

void line(long n)
{
    put(n);
    putchar(10);
}

typedef int Number;
typedef Number *Pointer;
typedef int Row[3];
typedef int Operation(int, int);
typedef Operation *Chosen;
typedef unsigned char byte;
typedef enum { Off, On } Switch;

int add(int a, int b) { return a + b; }
Operation subtract;

Chosen choose(Switch s) { return s == On ? add : subtract; }

int apply(Operation f, Number n) { return f(n, 2); }

int main()
{
    Number n = 5;
    Pointer p = &n;
    Row r;
    Row rows[2];
    for (int i = 0; i < 3; i++)
        r[i] = rows[1][i] = i * *p;
    line(r[2] + rows[1][1]);
    line(choose(On)(3, 4));
    line(choose(Off)(3, 4));
    line((*choose(On))(1, 1));
    line(apply(subtract, 9));
    byte b = 300;
    line(b);
    line(sizeof rows);
    typedef long Inner;
    Inner x = 8;
    return Number(x);
}

int subtract(int a, int b) { return a - b; }

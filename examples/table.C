// A table of pointers to functions, and one that takes such a pointer.

int add(int a, int b) { return a + b; }
int subtract(int a, int b) { return a - b; }
int multiply(int a, int b) { return a * b; }
int greater(int a, int b) { return a > b ? a : b; }

typedef int (*Operation)(int, int);

static Operation table[] = { add, subtract, multiply, &greater };
static const char *const names[] = { "add", "subtract", "multiply", "greater" };

void put_number(int n)
{
    if (n < 0) {
        putchar('-');
        n = -n;
    }
    if (n > 9)
        put_number(n / 10);
    putchar('0' + n % 10);
}

void put(const char *s)
{
    while (*s)
        putchar(*s++);
}

// the result over 1 to n
int fold(Operation f, int n)
{
    int result = 1;
    for (int i = 2; i <= n; ++i)
        result = f(result, i);
    return result;
}

int main()
{
    int sum = 0;
    for (int i = 0; i < 4; ++i) {
        int result = fold(table[i], 7);
        put(names[i]);
        putchar(' ');
        put_number(result);
        putchar('\n');
        sum += result & 15;
    }
    return sum;
}

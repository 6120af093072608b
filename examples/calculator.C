// A calculator: lines with numbers, + - * / % and brackets are read, and the value of each is put.

static int next;
static int line = 1;

void put(const char *s)
{
    while (*s)
        putchar(*s++);
}

void put_number(long n)
{
    if (n < 0) {
        putchar('-');
        n = -n;
    }
    if (n > 9)
        put_number(n / 10);
    putchar('0' + (int) (n % 10));
}

void step()
{
    do
        next = getchar();
    while (next == ' ');
}

void refuse(const char *why)
{
    put("line ");
    put_number(line);
    put(": ");
    put(why);
    putchar('\n');
    exit(1);
}

long sum();

long number()
{
    if (next < '0' || next > '9')
        refuse("a number is missing");
    long n = 0;
    for (; next >= '0' && next <= '9'; step())
        n = n * 10 + (next - '0');
    return n;
}

long factor()
{
    if (next == '-') {
        step();
        return -factor();
    }
    if (next != '(')
        return number();
    step();
    long n = sum();
    if (next != ')')
        refuse("a bracket is open");
    step();
    return n;
}

long product()
{
    long n = factor();
    while (next == '*' || next == '/' || next == '%') {
        int sign = next;
        step();
        long m = factor();
        if (sign == '*')
            n *= m;
        else if (m == 0)
            refuse("division by zero");
        else
            n = sign == '/' ? n / m : n % m;
    }
    return n;
}

long sum()
{
    long n = product();
    while (next == '+' || next == '-') {
        int sign = next;
        step();
        n += sign == '+' ? product() : -product();
    }
    return n;
}

main()
{
    for (step(); next != -1; step(), ++line) {
        put_number(sum());
        putchar('\n');
        if (next != '\n')
            refuse("the line does not end here");
    }
    return 0;
}

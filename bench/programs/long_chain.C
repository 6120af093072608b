// else if and conditional chains.

void put(long n)
{
    if (n < 0) {
        putchar(45);
        n = -n;
    }
    if (n > 9)
        put(n / 10);
    putchar(48 + (int) (n % 10));
}

void line(long n)
{
    put(n);
    putchar(10);
}

int grade(int n)
{
    if (n < 10)
        return 1;
    else if (n < 20)
        return 2;
    else if (n < 30)
        if (n % 2)
            return 3;
        else
            return 4;
    else
        ;
    return n < 40 ? 5 : n < 50 ? 6 : n < 60 ? 7 : 8;
}

int main()
{
    int sum = 0;
    for (int i = 0; i < 70; i += 5) {
        sum = sum * 3 + grade(i);
        sum %= 10007;
    }
    line(sum);
    if (sum) ; else line(1);
    if (0) line(2);
    return grade(25) * 10 + grade(55);
}

// Lines, words and bytes of the input.

void put(long n)
{
    if (n < 0) {
        putchar(45);
        n = -n;
    }
    if (n > 9)
        put(n / 10);
    putchar(48 + (int) (n % 10));
}

void line(long n)
{
    put(n);
    putchar(10);
}

int main()
{
    int c, lines = 0, words = 0, bytes = 0, in = 0;
    while ((c = getchar()) >= 0) {
        ++bytes;
        if (c == '\n')
            ++lines;
        if (c == ' ' || c == '\n' || c == '\t')
            in = 0;
        else if (!in) {
            in = 1;
            ++words;
        }
    }
    line(lines);
    line(words);
    line(bytes);
    line(getchar());
    return words;
}

// Strings in arrays and literals.

void put(long n)
{
    if (n < 0) {
        putchar(45);
        n = -n;
    }
    if (n > 9)
        put(n / 10);
    putchar(48 + (int) (n % 10));
}

void line(long n)
{
    put(n);
    putchar(10);
}

int length(const char *s)
{
    int n;
    for (n = 0; s[n]; n++)
        ;
    return n;
}

char *copy(char *to, const char *from)
{
    char *begin = to;
    while (*to++ = *from++)
        ;
    return begin;
}

int compare(const char *a, const char *b)
{
    while (*a && *a == *b)
        a++, b++;
    return *a - *b;
}

void say(const char *s)
{
    while (*s)
        putchar(*s++);
    putchar('\n');
}

int main()
{
    char buffer[32];
    say(copy(buffer, "some text"));
    line(length(buffer));
    line(compare("abc", "abd"));
    line(compare("abc", "abc"));
    line(compare("b", "abc"));
    say("tab\tquote\"backslash\\octal\101hex\x42" "joined");
    line(sizeof "four");
    line("index"[2]);
    copy(buffer + length(buffer), ", more");
    say(buffer);
    buffer[4] = '\0';
    say(buffer);
    say("");
    char *p = buffer;
    *p = *p - 'a' + 'A';
    say(p);
    return length("\0hidden");
}

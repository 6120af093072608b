// Strings that start arrays of unsigned char.

void put(long n)
{
    if (n < 0) {
        putchar(45);
        n = -n;
    }
    if (n > 9)
        put(n / 10);
    putchar(48 + (int) (n % 10));
}

void line(long n)
{
    put(n);
    putchar(10);
}

unsigned char t[] = "\310b";

int main()
{
    unsigned char s[] = "\377a";
    line(t[0]);
    line(s[0]);
    return sizeof s;
}

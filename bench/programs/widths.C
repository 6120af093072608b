// Values that are stored in narrow types and widened again.

void put(long n)
{
    if (n < 0) {
        putchar(45);
        n = -n;
    }
    if (n > 9)
        put(n / 10);
    putchar(48 + (int) (n % 10));
}

void line(long n)
{
    put(n);
    putchar(10);
}

int main()
{
    for (int i = -3; i < 4; i++) {
        char c = i * 100;
        signed char s = i * 100;
        unsigned char u = i * 100;
        short h = i * 20000;
        unsigned short w = i * 20000;
        line(c);
        line(s);
        line(u);
        line(h);
        line(w);
        line((unsigned char) c + (unsigned short) h);
        line((char) w);
        line((short) u - c);
    }
    unsigned char top = 255;
    top++;
    line(top);
    top--;
    line(top);
    short big = 32767;
    big++;
    line(big);
    char c = 127;
    c += 2;
    line(c);
    line(c >> 1);
    line((unsigned) c >> 24);
    return c;
}

// Bits of unsigned numbers: counted, reversed, rotated, and put in binary.

void put_binary(unsigned long n)
{
    for (int i = 31; i >= 0; --i) {
        putchar('0' + (n >> i & 1));
        if (i && i % 8 == 0)
            putchar('_');
    }
    putchar('\n');
}

int count(unsigned n)
{
    int bits = 0;
    for (; n; n &= n - 1)
        ++bits;
    return bits;
}

unsigned reversed(unsigned n)
{
    n = (n & 0x55555555u) << 1 | (n >> 1 & 0x55555555u);
    n = (n & 0x33333333u) << 2 | (n >> 2 & 0x33333333u);
    n = (n & 0x0f0f0f0fu) << 4 | (n >> 4 & 0x0f0f0f0fu);
    n = (n & 0x00ff00ffu) << 8 | (n >> 8 & 0x00ff00ffu);
    return n << 16 | n >> 16;
}

unsigned rotated(unsigned n, int by)
{
    by &= 31;
    return by ? n << by | n >> (32 - by) : n;
}

int main()
{
    unsigned n = 0xcafe1990u;
    put_binary(n);
    put_binary(reversed(n));
    put_binary(rotated(n, 12));
    put_binary(~n ^ 0xffffu);
    unsigned char low = n;
    short middle = (short) (n >> 8);
    put_binary(low);
    put_binary(middle);
    return count(n) + (middle < 0) * 64;
}

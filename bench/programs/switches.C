// switch: labels in any order, fall through, default in the middle, nested.

void put(long n)
{
    if (n < 0) {
        putchar(45);
        n = -n;
    }
    if (n > 9)
        put(n / 10);
    putchar(48 + (int) (n % 10));
}

void line(long n)
{
    put(n);
    putchar(10);
}

int kind(int n)
{
    switch (n) {
    case 1:
        return 10;
    case -5:
        n++;
    case 2:
        n += 2;
        break;
    default:
        n = 100;
    case 7:
    case 8:
        n *= 2;
        break;
    case 2147483647:
        n = -1;
    }
    return n;
}

int letter(char c)
{
    switch (c) {
    case 'a': case 'e': case 'i': case 'o': case 'u':
        return 1;
    case ' ':
        break;
    default:
        if (c >= 'a' && c <= 'z')
            return 2;
        return 3;
    }
    return 0;
}

int inner(unsigned a, int b)
{
    switch (a) {
    case 0:
        switch (b) {
        case 0: return 1;
        case 1: break;
        default: return 2;
        }
        b = 40;
    case 4000000000u:
        return b + 3;
    }
    switch (b) {
    }
    switch (b) {
    default:
        b++;
    }
    return b;
}

int main()
{
    for (int i = -6; i < 10; i++)
        line(kind(i));
    line(kind(2147483647));
    for (const char *s = "a bc U"; *s; s++)
        line(letter(*s));
    for (int a = 0; a < 2; a++)
        for (int b = 0; b < 7; b++)
            line(inner(a, b));
    line(inner(4000000000u, 1));
    int n = 0;
    for (int k = 0; k < 10; k++) {
        switch (k % 4) {
        case 0:
            continue;
        case 1: {
            int twice = k * 2;
            n += twice;
            break;
        }
        case 3:
            n += 100;
        }
        n++;
    }
    return n;
}

// Strings are reversed in place by two pointers that meet.

static char palindrome[] = "Madam, I'm Adam";
static char alphabet[] = "abcdefghijklmnopqrstuvwxyz";
static char empty[] = "";

char *end_of(char *s)
{
    while (*s)
        s++;
    return s;
}

void reverse(char *s)
{
    char *last = end_of(s);
    while (s < last) {
        char c = *s;
        *s++ = *--last;
        *last = c;
    }
}

int put(const char *s)
{
    int count = 0;
    for (; *s; count++)
        putchar(*s++);
    putchar('\n');
    return count;
}

int main()
{
    char *all[3];
    all[0] = palindrome;
    all[1] = alphabet;
    all[2] = empty;
    int put_in_all = 0;
    for (char **p = all; p != all + 3; ++p) {
        reverse(*p);
        put_in_all += put(*p);
    }
    return put_in_all;
}

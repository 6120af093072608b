// A filter of text: blanks are put once, each line begins with its number and each word with a capital.

int is_letter(int c) { return c >= 'a' && c <= 'z' || c >= 'A' && c <= 'Z'; }

int capital(int c) { return c >= 'a' && c <= 'z' ? c - 'a' + 'A' : c; }

void begin(int line)
{
    if (line < 10)
        putchar(' ');
    else
        putchar('0' + line / 10 % 10);
    putchar('0' + line % 10);
    putchar(' ');
}

int main()
{
    int lines = 0;
    int before = '\n';
    for (int c = getchar(); c >= 0; c = getchar()) {
        if (c == '\t')
            c = ' ';
        if (c == ' ' && (before == ' ' || before == '\n'))
            continue;
        if (before == '\n')
            begin(++lines);
        putchar(is_letter(before) ? c : capital(c));
        before = c;
    }
    return lines;
}

// What comes in goes out, byte by byte, up to the end of the input.

int main()
{
    int c;
    while ((c = getchar()) != -1)
        putchar(c);
    return 0;
}

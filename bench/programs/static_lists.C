// Lists and strings that start static arrays.

void put(long n)
{
    if (n < 0) {
        putchar(45);
        n = -n;
    }
    if (n > 9)
        put(n / 10);
    putchar(48 + (int) (n % 10));
}

void line(long n)
{
    put(n);
    putchar(10);
}

int a[3] = { 1, 2, 3 };
static int b[5] = { 4, 5 };
int c[] = { 6, 7, 8, 9, };
int d[2][3] = { { 1, 2, 3 }, { 4 } };
int e[2][2] = { 1, 2, 3, 4 };
char s[] = "text";
char t[8] = "ab";
char u[] = { 'x', 'y', 0 };
const char *names[] = { "one", "two", "three" };
const char *const fixed[2] = { "left", "right" };
char grid[2][4] = { "abc", "xyz" };
short h[4] = { -1, 'a', 70000 - 65536, 2 * 3 };
unsigned char bytes[3] = { 200, 255, 1 };
int *pointers[3] = { a, &a[2], b + 1 };
unsigned long big[] = { 4000000000u, 0xffffffff };
int zeros[4];

int main()
{
    static int in[3] = { 10, 20 };
    static const char message[] = "in";
    line(a[0] + a[1] * 10 + a[2] * 100);
    line(b[0] + b[1] + b[2] + b[3] + b[4]);
    line(sizeof c / sizeof c[0]);
    line(d[0][2] * 10 + d[1][0] + d[1][1]);
    line(e[1][0]);
    line(sizeof s);
    line(s[3]);
    line(t[1] + t[2] + t[7]);
    line(u[0]);
    for (int i = 0; i < 3; i++)
        for (const char *p = names[i]; *p; p++)
            putchar(*p);
    line(fixed[1][4]);
    line(grid[1][2]);
    line(h[0] + h[1] + h[2] + h[3]);
    line(bytes[0] + bytes[1]);
    line(*pointers[0] + *pointers[1] * 10 + *pointers[2] * 100);
    line(big[0] / 1000);
    line(big[1] == 4294967295u);
    line(zeros[3]);
    in[0]++;
    line(in[0] + in[2]);
    line(message[1] + sizeof message);
    return a[1];
}

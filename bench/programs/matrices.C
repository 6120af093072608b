// Products of matrices, powers of one.

void put(long n)
{
    if (n < 0) {
        putchar(45);
        n = -n;
    }
    if (n > 9)
        put(n / 10);
    putchar(48 + (int) (n % 10));
}

void line(long n)
{
    put(n);
    putchar(10);
}

typedef unsigned Matrix[2][2];

void multiply(Matrix a, const Matrix b)
{
    Matrix c;
    int i;
    for (i = 0; i < 2; i++) {
        for (int j = 0; j < 2; j++) {
            c[i][j] = 0;
            for (int k = 0; k < 2; k++)
                c[i][j] += a[i][k] * b[k][j];
        }
    }
    for (i = 0; i < 2; i++)
        for (int j = 0; j < 2; j++)
            a[i][j] = c[i][j];
}

int main()
{
    Matrix m, p;
    m[0][0] = m[0][1] = m[1][0] = 1;
    m[1][1] = 0;
    p[0][0] = p[1][1] = 1;
    p[0][1] = p[1][0] = 0;
    for (int n = 30; n; n >>= 1) {
        if (n & 1)
            multiply(p, m);
        multiply(m, m);
    }
    line(p[0][1]);
    return p[0][1] % 251;
}

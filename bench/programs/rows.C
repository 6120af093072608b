// Arrays of arrays, and pointers to rows.

void put(long n)
{
    if (n < 0) {
        putchar(45);
        n = -n;
    }
    if (n > 9)
        put(n / 10);
    putchar(48 + (int) (n % 10));
}

void line(long n)
{
    put(n);
    putchar(10);
}

int table[3][4];

int total(int (*rows)[4], int n)
{
    int sum = 0;
    for (int i = 0; i < n; i++)
        for (int j = 0; j < 4; j++)
            sum += rows[i][j];
    return sum;
}

int last(int row[]) { return row[3]; }

int main()
{
    int cube[2][3][2];
    int i;
    for (i = 0; i < 3; i++)
        for (int j = 0; j < 4; j++)
            table[i][j] = i * 10 + j;
    line(total(table, 3));
    line(total(table + 1, 1));
    line(last(table[2]));
    line(*(*(table + 1) + 2));
    int (*row)[4] = &table[1];
    line((*row)[3]);
    row++;
    line(row[0][1]);
    line(row - table);
    for (i = 0; i < 2; i++)
        for (int k = 0; k < 3; k++)
            for (int l = 0; l < 2; l++)
                cube[i][k][l] = i * 100 + k * 10 + l;
    line(cube[1][2][0] + cube[0][1][1]);
    line(sizeof cube / sizeof cube[0]);
    line(sizeof table[0]);
    int *flat = table[1];
    line(flat[3]);
    return table[2][3];
}

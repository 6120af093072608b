// Eight queens by trying.

void put(long n)
{
    if (n < 0) {
        putchar(45);
        n = -n;
    }
    if (n > 9)
        put(n / 10);
    putchar(48 + (int) (n % 10));
}

void line(long n)
{
    put(n);
    putchar(10);
}

static int column[8], left[15], right[15], place[8];
int found;

void put_queen(int row)
{
    if (row == 8) {
        if (found++ == 0) {
            for (int i = 0; i < 8; i++)
                putchar('1' + place[i]);
        }
        return;
    }
    for (int c = 0; c < 8; c++) {
        if (column[c] || left[row + c] || right[row - c + 7])
            continue;
        column[c] = left[row + c] = right[row - c + 7] = 1;
        place[row] = c;
        put_queen(row + 1);
        column[c] = left[row + c] = right[row - c + 7] = 0;
    }
}

int main()
{
    put_queen(0);
    putchar('\n');
    return found;
}

// An array is sorted by quicksort over pointers to its elements.

static int numbers[12] = { 31, -4, 15, 9, 2653, -58, 9, 79, 0, 3238, -462, 6 };

void put_number(int n)
{
    if (n < 0) {
        putchar('-');
        n = -n;
    }
    if (n > 9)
        put_number(n / 10);
    putchar('0' + n % 10);
}

void exchange(int &a, int &b)
{
    int old = a;
    a = b;
    b = old;
}

// sorts the elements from first up to behind
void sort(int *first, int *behind)
{
    if (behind - first < 2)
        return;
    int pivot = *first;
    int *low = first;
    for (int *p = first + 1; p < behind; ++p)
        if (*p < pivot)
            exchange(*++low, *p);
    exchange(*first, *low);
    sort(first, low);
    sort(low + 1, behind);
}

int main()
{
    const int count = sizeof numbers / sizeof numbers[0];
    sort(numbers, numbers + count);
    for (int i = 0; i < count; i++) {
        put_number(numbers[i]);
        putchar(i + 1 < count ? ' ' : '\n');
    }
    return 0;
}

// Objects of the file: zero, constants, addresses.

void put(long n)
{
    if (n < 0) {
        putchar(45);
        n = -n;
    }
    if (n > 9)
        put(n / 10);
    putchar(48 + (int) (n % 10));
}

void line(long n)
{
    put(n);
    putchar(10);
}

int zero;
int five = 2 + 3;
unsigned char small = 300 & 255;
long negative = -5L;
int array[4];
int *first = array;
int *third = &array[2];
int *behind = array + 4;
int **indirect = &first;
char *text = "hello";
const char *part = "hello" + 2;
void *any = &five;
extern int later;
int use_later() { return later + 1; }
int later = 41;

int main()
{
    line(zero);
    line(five);
    line(small);
    line(negative);
    *third = 6;
    line(array[2]);
    line(behind - third);
    line(**indirect + (first == array));
    line(text[4]);
    putchar(*part);
    line(any == &five);
    line(use_later());
    int zero = 3;
    {
        int zero = 4;
        line(zero);
    }
    extern int five;
    five++;
    line(five);
    return zero;
}

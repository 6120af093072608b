// References to objects, elements and pointers; as parameters, as results.

void put(long n)
{
    if (n < 0) {
        putchar(45);
        n = -n;
    }
    if (n > 9)
        put(n / 10);
    putchar(48 + (int) (n % 10));
}

void line(long n)
{
    put(n);
    putchar(10);
}

int global = 5;
int array[4];

void add(int &to, const int &what) { to += what; }
int &at(int i) { return array[i]; }
int &least(int &a, int &b) { return a < b ? a : b; }
int twice(const int &n) { return n * 2; }
int through(int *&p) { return *p++; }
long wide(const long &n) { return n; }

int main()
{
    int i = 4;
    int &j = i;
    j = j + 1;
    line(i);
    line(&i == &j);
    add(i, 3);
    line(i);
    add(i, i);
    line(i);
    at(2) = 7;
    at(2)++;
    line(array[2]);
    int b = 100;
    least(i, b) = 0;
    line(i);
    least(b, global) += 50;
    line(global);
    line(twice(3 + 4));
    line(twice(i) + twice(b));
    int *p = array;
    array[0] = 11;
    line(through(p));
    line(p - array);
    line(wide(b));
    char c = 'a';
    line(twice(c));
    const int &kept = 6 * 7;
    const int &other = i;
    i = 3;
    line(kept + other);
    int (&whole)[4] = array;
    whole[3] = 1;
    line(array[3] + sizeof whole);
    for (int k = 0; k < 3; k++) {
        int &slot = array[k];
        slot = k;
    }
    line(array[1] + array[2]);
    return j;
}

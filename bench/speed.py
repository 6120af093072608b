"""Time of translation for each token, and ticks per second of a run beside g++ and python3.

    python3 bench/speed.py

Files of 10,000 and of 150,000 tokens with all kinds of statements: time per token must not grow by more than a fifth. Then a loop over an array: turns per second
of `go`, of the program that g++ builds with -O0, and of python3. The variable CFRONT names another program than `./cfront`.
"""
import os
import subprocess
import sys
import tempfile
import time

from measure import best, go
from native import Native

TOKENS_EACH = 172

FUNCTION = """\
enum e$ { first$, second$ = 3 };
static int table$[4] = { 1, -2, 3 };
int f$(int a, int *p, const char *s)
{
    int sum = 0;
    for (int i = 0; i < 4; ++i)
        sum += table$[i] * p[i] - a;
    while (*s && sum < 1000)
        sum = sum + *s++;
    switch (sum & 3) {
    case first$:
        *p = sum;
        break;
    case second$:
        return a ? sum : -sum;
    default:
        do
            sum -= 7;
        while (sum > 100 || (unsigned char) sum == 9);
    }
    if (sum != 5)
        p[1] ^= sum << 2;
    return sum % 11 + &table$[3] - table$;
}
"""

TURNS = 9_000_000
LOOP = "int a[1000];int main(){int s=0;for(int i=0;i<9000;i++)for(int j=0;j<1000;j++){a[j]=a[j]+i;s+=a[j]&3;}return s&127;}\n"
PYTHON = """\
def main():
    a = [0] * 1000
    s = 0
    for i in range(9000):
        for j in range(1000):
            a[j] = a[j] + i
            s += a[j] & 3
    return s & 127
raise SystemExit(main())
"""


def file_of(tokens):
    """A file of about so many tokens."""
    count = tokens // TOKENS_EACH
    return "".join(FUNCTION.replace("$", str(number)) for number in range(count)) + "int main(){return 7;}\n"


def timed(words):
    """Seconds and status of a program."""
    begun = time.monotonic()
    ran = subprocess.run(words, stdout=subprocess.DEVNULL, check=False)
    return time.monotonic() - begun, ran.returncode


def translation():
    """Prints the times of translation, and gives whether they are flat."""
    go(file_of(1_000))
    base = None
    for tokens in (10_000, 150_000):
        seconds, memory, status, line = best(file_of(tokens), 3)
        each = seconds / tokens
        base = base or each
        print(f"{tokens:>8} tokens  {seconds:8.3f} s  {memory:7.1f} MiB  {each * 1e6:8.2f} us a token  {each / base:5.2f}  {status} {line}", flush=True)
    return each / base <= 1.2


def runs():
    """Prints the speeds of a loop."""
    seconds, memory, status, line = go(LOOP)
    print(f"go       {seconds:8.3f} s  {TURNS / seconds:13.0f} turns a second  {status} {line}  {memory:.1f} MiB", flush=True)
    with tempfile.TemporaryDirectory() as folder:
        source = os.path.join(folder, "a.cc")
        with open(source, "w", encoding="ascii") as file:
            file.write(LOOP)
        program, said = Native(folder).build(source, "g++", ["-O0"])
        if program is None:
            print(said)
        else:
            seconds, status = timed([program])
            print(f"g++ -O0  {seconds:8.3f} s  {TURNS / seconds:13.0f} turns a second  {status}", flush=True)
        source = os.path.join(folder, "a.py")
        with open(source, "w", encoding="ascii") as file:
            file.write(PYTHON)
        seconds, status = timed([sys.executable, source])
        print(f"python3  {seconds:8.3f} s  {TURNS / seconds:13.0f} turns a second  {status}", flush=True)


if __name__ == "__main__":
    flat = translation()
    runs()
    sys.exit(0 if flat else 1)

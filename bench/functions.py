"""Files of functions over int: seconds and peak memory of `go` for 1,000, 10,000 and 100,000 tokens, and ticks per second of a run.

    python3 bench/functions.py

Time per token must not grow with the file: the last column is at most 2 times the first line's.
"""
from measure import best, go

TOKENS_EACH = 53


def function(number):
    """A function of 53 tokens that calls the one before it."""
    before = f"f{number - 1}(a,b)" if number else "a-b"
    return (
        f"int f{number}(int a,int b){{int s=a+b;"
        f"if(s<b){{s={before};}}else{{s=s-(a-b);}}return s+1;}}\n"
    )


def file_of(tokens):
    """A file of about so many tokens whose main calls the first function."""
    count = tokens // TOKENS_EACH
    return "".join(function(n) for n in range(count)) + "int main(){return f0(3,4);}\n"


LOOP = "int main(){int n=9999999;while(0<n){n=n-1;}return 7;}\n"


def main():
    go(file_of(100))
    base = None
    for tokens in (1_000, 10_000, 100_000):
        seconds, memory, status, line = best(file_of(tokens), 3)
        each = seconds / tokens
        base = base or each
        print(f"{tokens:>7} tokens  {seconds:8.3f} s  {memory:7.1f} MiB  {each * 1e6:8.2f} us a token  {each / base:5.2f}  {status} {line}")
    seconds, memory, status, line = best(LOOP, 1)
    print(f"{10_000_000:>10} ticks  {seconds:8.3f} s  {memory:7.1f} MiB  {10_000_000 / seconds:12.0f} ticks a second  {status} {line}")


if __name__ == "__main__":
    main()

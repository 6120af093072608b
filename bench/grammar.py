"""The whole grammar: seconds and peak memory of `go` on files of 15,000 and 150,000 tokens of classes, functions and declarations.

    python3 bench/grammar.py

A file has a tree and is then outside the profile at its first class, so the time is that of lexer and grammar. Time per token must not grow with the file: the last
column is at most 2.
"""
from measure import best, go

TOKENS_EACH = 75


def piece(number):
    """A class with a base, members and bodies that are read late, and a function that uses it."""
    base = f":public c{number - 1}" if number % 4 else ""
    return (
        f"class c{number}{base}{{int a;public:c{number}(int n):a(n){{}}int get(){{return a+twice();}}int twice(){{return 2*a;}}}};"
        f"int f{number}(int n){{c{number} x(n);int s=0;while(s<n)s=s+x.get();return s;}}\n"
    )


def file_of(tokens):
    """A file of about so many tokens."""
    return "".join(piece(n) for n in range(tokens // TOKENS_EACH)) + "int main(){return f0(3);}\n"


def main():
    go(file_of(100))
    base = None
    for tokens in (15_000, 150_000):
        seconds, memory, status, line = best(file_of(tokens), 3)
        each = seconds / tokens
        base = base or each
        print(f"{tokens:>7} tokens  {seconds:8.3f} s  {memory:7.1f} MiB  {each * 1e6:8.2f} us a token  {each / base:5.2f}  {status} {line}")


if __name__ == "__main__":
    main()

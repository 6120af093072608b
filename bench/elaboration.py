"""Elaboration: seconds for files of 1,500, 15,000 and 150,000 tokens of enumerations, objects and functions.

    python3 bench/elaboration.py

The time of lexer and grammar is measured alone and taken off. Time per token must not grow with the file: the last column is at most 2.
"""
import os
import re
import subprocess
import tempfile

from measure import TOP, measured

CRATE = os.path.join(TOP, "crates", "cf_elab_bench")
PROGRAM = os.path.join(CRATE, "out", "cf_elab_bench")
FIRST = "int f0(int n,int*p){return n;}\n"


def build():
    """Builds the program where it isn't built."""
    if not os.path.exists(PROGRAM):
        subprocess.run(["rt", "run"], cwd=CRATE, stdout=subprocess.DEVNULL, check=False)


def piece(number):
    """An enumeration, objects, and a function with loops, a switch and a call of the one before."""
    return (
        f"enum e{number}{{a{number},b{number}={number}}};int x{number}={number};int*p{number}=&x{number};typedef int t{number}[3];"
        f"int f{number}(int n,int*p){{int s=0;t{number} u;for(int i=0;i<n;i=i+1){{u[i%3]=p[i]+a{number};if(i%2)s+=u[0];else s=s-*p{number};}}"
        f"switch(s){{case b{number}:return x{number};default:break;}}return s?f{number - 1}(n-1,&s):n;}}\n"
    )


def tokens_of(text):
    """How many tokens a text has."""
    return len(re.findall(r"\w+|\+=|[^\w\s]", text))


def file_of(tokens):
    """A file of about so many tokens."""
    text, number = [FIRST], 1
    count = tokens_of(FIRST)
    while count < tokens - 20:
        text.append(piece(number))
        count += tokens_of(text[-1])
        number += 1
    return "".join(text) + f"int main(){{return f{number - 1}(3,0);}}\n"


def best(word, name):
    """The fastest of three runs."""
    return min(measured([PROGRAM, word, name], 1) for _ in range(3))


def main():
    build()
    base = None
    for tokens in (1_500, 15_000, 150_000):
        with tempfile.TemporaryDirectory() as folder:
            name = os.path.join(folder, "a.C")
            text = file_of(tokens)
            with open(name, "w", encoding="ascii") as file:
                file.write(text)
            tree = best("tree", name)
            whole = best("elab", name)
        seconds = whole[0] - tree[0]
        each = seconds / tokens_of(text)
        base = base or each
        print(
            f"{tokens_of(text):>7} tokens  {seconds:8.3f} s  {whole[1]:7.1f} MiB  {each * 1e6:8.2f} us a token  {each / base:5.2f}  {tree[3]} {whole[3]}"
        )


if __name__ == "__main__":
    main()

"""Texts of 2^17 and 2^20 bytes, mostly comments, blanks and words: seconds of `go` for each.

    python3 bench/lexer.py
"""
from measure import best, go

MOST = 1 << 20


def text_of(length):
    """A program of exactly so many bytes, with comments of both kinds and wide gaps."""
    head = "int main(){return 0x1F;}\n"
    piece = "/* a comment ** with stars */ \t // and one to the end of its line\n"
    body = piece * ((length - len(head)) // len(piece))
    return head + body + " " * (length - len(head) - len(body))


def main():
    go(text_of(1000))
    for length in (MOST >> 3, MOST):
        seconds, memory, status, line = best(text_of(length), 3)
        print(f"{length:>8} bytes  {seconds:8.3f} s  {memory:7.1f} MiB  {seconds / length * 1e9:8.1f} ns a byte  {status} {line}")


if __name__ == "__main__":
    main()

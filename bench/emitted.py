"""The C text of each program, compiled by gcc for 32 bits behind a prelude of a few lines: same output and same status as `go`.

    python3 bench/emitted.py [NAME..]

The programs are those of `examples/` and of `programs/`; NAMEs leave the others out. Ends with 1 where one does otherwise.
"""
import os
import sys
import tempfile

from against_gcc import gone, judge_all
from native import contents, run

# what the linker adds: a `main` that lets the constant initialisers take effect first
PRELUDE = """\
typedef void (*__f)(void);
struct __e { int d; __f f; };
int __main(void);
"""
STARTS = "static void __hci(void);\nint main(void) { __hci(); return __main(); }\n"
PLAIN = "int main(void) { return __main(); }\n"
FLAGS = ["-std=gnu89", "-O0"]


def judged(native, path):
    """A word for how the text of a program did, and what is to be said of it."""
    with tempfile.TemporaryDirectory() as folder:
        given, status, output, line = gone(path, folder)
        if not line.startswith("cfront: ended "):
            return "stopped", line or f"status {status}"
        text = contents(os.path.join(folder, os.path.basename(path) + ".c"))
        source = os.path.join(folder, "text.c")
        with open(source, "wb") as file:
            file.write((PRELUDE + (STARTS if b"__hci" in text else PLAIN)).encode("ascii") + text)
        program, said = native.build(source, "gcc", FLAGS)
    if program is None:
        return "DIFFERS", "gcc: " + said.strip().splitlines()[0]
    other, put, _ = run([program], given)
    if (status, output) == (other, put):
        return "agrees", f"status {status}, {len(output)} bytes"
    return "DIFFERS", f"status {other} for {status}, output {put[-60:]!r} for {output[-60:]!r}"


if __name__ == "__main__":
    sys.exit(judge_all(judged, sys.argv[1:]))

"""Small programs of the language, run by `go` and as g++ builds them for 32 bits, with their outputs and statuses compared.

    python3 bench/against_gcc.py [NAME..]

The programs are those of `programs/` and of `examples/`; NAMEs leave the others out. Where NAME.want stands beside a program, its first
line is the last line that is wanted of `go`, and the rest the output, and g++ is not asked; so it is with what `examples/expected` lists. The variable
CFRONT names another program than `./cfront`. Ends with 1 where a program ends otherwise than wanted; what stops `go` elsewhere is only shown.
"""
import glob
import os
import shutil
import sys
import tempfile

from measure import CFRONT, TOP
from native import Native, contents, run

FLAGS = ["-std=gnu++98", "-fpermissive", "-O0", "-fno-exceptions", "-fno-threadsafe-statics"]


def sources(names):
    """The programs by their names."""
    found = sorted(glob.glob(os.path.join(TOP, "bench", "programs", "*.C")) + glob.glob(os.path.join(TOP, "examples", "*.C")))
    return [path for path in found if not names or os.path.basename(path)[:-2] in names]


def wanted(native, path, given):
    """What the program is to do: status and output, or why nothing is known of it."""
    source = os.path.join(native.folder, "a.cc")
    shutil.copy(path, source)
    with open(source, "r+", encoding="latin-1") as file:
        text = file.read()
        file.seek(0)
        file.write('extern "C" int putchar(int), getchar(); extern "C" void exit(int);\n#line 1\n' + text)
    program, said = native.build(source, "g++", FLAGS)
    if program is None:
        return None, b"", "g++: " + said.strip().splitlines()[0]
    status, output, _ = run([program], given)
    return status, output, "" if status is not None and status >= 0 else f"g++'s program ended by signal {status}"


def told(path):
    """The last line and the output that are written down for a program, or None."""
    if os.path.exists(path[:-2] + ".want"):
        line, _, out = contents(path[:-2] + ".want").partition(b"\n")
        return line, out
    listed = contents(os.path.join(os.path.dirname(path), "expected")).splitlines()
    lines = [words[2] for words in (entry.split(b" ", 2) for entry in listed) if words[0] == os.path.basename(path)[:-2].encode()]
    return (lines[0], contents(path[:-2] + ".out")) if lines else None


def gone(path, folder):
    """The input of a program, and what `go` makes of a copy in this folder: status, output and last line."""
    given = contents(path[:-2] + ".in")
    shutil.copy(path, folder)
    return given, *run([CFRONT, "go", os.path.basename(path)], given, folder=folder)


def judged(native, path):
    """A word for how a program did, and what is to be said of it."""
    with tempfile.TemporaryDirectory() as folder:
        given, status, output, line = gone(path, folder)
    known = told(path)
    if known is not None:
        if (line.encode(), output) == known:
            return "agrees", line
        return "DIFFERS", f"{line!r} for {known[0]!r}, output {output[-60:]!r} for {known[1][-60:]!r}"
    if not line.startswith("cfront: ended "):
        return "stopped", line or f"status {status}"
    want, out, why = wanted(native, path, given)
    if why:
        return "unknown", why
    if (status, output) == (want, out):
        return "agrees", f"status {status}, {len(output)} bytes"
    return "DIFFERS", f"status {status} for {want}, output {output[-60:]!r} for {out[-60:]!r}"


def judge_all(judged, names):
    """Prints a word for each program, as `judged` gives it, and returns whether none does otherwise than wanted, as a status."""
    counts = {}
    with tempfile.TemporaryDirectory() as folder:
        native = Native(folder)
        for path in sources(names):
            word, said = judged(native, path)
            counts[word] = counts.get(word, 0) + 1
            print(f"{os.path.relpath(path, TOP):36} {word:8} {said}", flush=True)
    print(", ".join(f"{count} {word}" for word, count in sorted(counts.items())))
    return 1 if counts.get("DIFFERS") else 0


if __name__ == "__main__":
    sys.exit(judge_all(judged, sys.argv[1:]))

"""Runs a built program and measures the run."""
import os
import tempfile
import time

TOP = os.path.dirname(os.path.dirname(os.path.abspath(__file__)))
LAUNCHER = os.path.join(TOP, "cfront")
# the variable CFRONT names another program
CFRONT = os.environ.get("CFRONT", LAUNCHER)


def measured(words, told):
    """Runs a program with its words: seconds, peak memory in MiB, status, last line on the stream `told`, 1 or 2."""
    with tempfile.TemporaryDirectory() as folder:
        lines = os.path.join(folder, "lines")
        begun = time.monotonic()
        child = os.fork()
        if child == 0:
            nothing = os.open(os.devnull, os.O_WRONLY)
            os.dup2(nothing, 3 - told)
            os.dup2(os.open(lines, os.O_WRONLY | os.O_CREAT), told)
            os.execv(words[0], words)
        _, status, used = os.wait4(child, 0)
        seconds = time.monotonic() - begun
        with open(lines, encoding="utf-8", errors="replace") as file:
            last = file.read().strip().splitlines()[-1:]
    return seconds, used.ru_maxrss / 1024, os.waitstatus_to_exitcode(status), "".join(last)


def go(text):
    """Runs `go` on a file with this text, and measures it with its last line on standard error."""
    with tempfile.TemporaryDirectory() as folder:
        name = os.path.join(folder, "a.C")
        with open(name, "w", encoding="ascii") as file:
            file.write(text)
        return measured([CFRONT, "go", name], 2)


def best(text, turns):
    """The fastest of so many runs."""
    return min(go(text) for _ in range(turns))

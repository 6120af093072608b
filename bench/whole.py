"""Two programs of the whole small C, run until their ticks are spent: ticks per second and peak memory.

    python3 bench/whole.py

`turns` has a loop that adds, and makes no blocks, so its memory is the same at any number of ticks. `calls` has a loop that calls a function each time:
a parameter's block leaves an entry when it ends, so its memory grows with the calls.
"""
import os
import subprocess

from measure import TOP, measured

CRATE = os.path.join(TOP, "crates", "cc_whole_bench")
PROGRAM = os.path.join(CRATE, "out", "cc_whole_bench")


def build():
    """Builds the program where it isn't built."""
    if not os.path.exists(PROGRAM):
        subprocess.run(["rt", "run"], cwd=CRATE, stdout=subprocess.DEVNULL, check=False)


def main():
    build()
    for kind in ("turns", "calls"):
        for ticks in (1_000_000, 10_000_000):
            seconds, memory, status, line = measured([PROGRAM, kind, str(ticks)], 1)
            print(f"{kind} {ticks:>10} ticks  {seconds:8.3f} s  {memory:7.1f} MiB  {ticks / seconds:12.0f} ticks a second  {status} {line}")


if __name__ == "__main__":
    main()

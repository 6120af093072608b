#!/usr/bin/env python3
"""The gate, with the proofs below some crates before all else.

usage: python3 bench/proofs_first.py CRATE [CRATE..]

It runs at the top of a checkout as `rt ci` does there and keeps what it proves for later runs on the machine, but takes the proofs of the named crates
and of those below them first, then the other proofs, then tests, then must-fail edits. A file /tmp/lanes with a number changes, from the next task on,
how many tasks run side by side.
"""

import os
import sys
from concurrent.futures import FIRST_COMPLETED, ThreadPoolExecutor, wait

from check_from_sources import kit


def lanes(most):
    try:
        with open("/tmp/lanes", encoding="utf-8") as it:
            return min(int(it.read()), most)
    except (OSError, ValueError):
        return most


def main(*names):
    rt = kit()
    crates = {it.name: it for it in rt.crates_of(os.getcwd())}
    first = {below.name for name in names for below in [crates[name], *crates[name].below()]}

    def rank(key):
        """The place of a task's kind in the order."""
        kind = key[1]
        return 3 if kind not in ("proof", "tests") else 2 if kind == "tests" else 0 if key[0] in first else 1

    def in_order(tasks):
        """Runs the tasks as the kit does, but by rank, and by the longest chain of proofs that waits for them."""
        behind = dict.fromkeys(tasks, 0)
        for key in reversed([*tasks]):
            behind[key] += tasks[key][1] if key[1] == "proof" else 0
            for it in tasks[key][0]:
                behind[it] = max(behind[it], behind[key])
        left, running, given = sorted(tasks, key=lambda it: (rank(it), -behind[it])), {}, {}
        most, memory = rt.processors(), 0.85 * rt.free()
        with rt.ending(), ThreadPoolExecutor(most) as pool:
            while left or running:
                for key in [it for it in left if all(below in given for below in tasks[it][0])]:
                    needs, call = tasks[key][2:]
                    is_full = len(running) >= lanes(most) or running and needs > memory - sum(it for _, it in running.values())
                    is_early = rank(key) > 1 and any(rank(it) < 2 for it in left)
                    if not is_full and not is_early:
                        left.remove(key)
                        running[pool.submit(call, given, 1)] = key, needs
                for it in wait(running, timeout=20, return_when=FIRST_COMPLETED).done:
                    given[running.pop(it)[0]] = it.result()
        return given

    rt.in_lanes = in_order
    return rt.main(["ci"])


if __name__ == "__main__":
    sys.exit(main(*sys.argv[1:]) if len(sys.argv) > 1 else __doc__)

#!/usr/bin/env python3
"""Checks functions of a crate without a proof of the crates below it.

usage: python3 bench/check_from_sources.py CRATE WHAT[,WHAT..] [rattle's flags]

WHAT is a function, a type or a module of the crate, or ALL for every module. The libraries below are read as source, so that nothing has to be
built first; what WHAT calls is checked too, in those libraries as well. It keeps what it checked in the crate's out/from-sources. A run takes half a
minute at least, and 2 to 4 GB. It is for writing proofs and gives no verdict: that is rt ci alone.

Where a call leads to much that is not to be checked now, work in a copy of the repository in which the called function's body answers want of memory,
or has a proof with a hole and --allow-holes.
"""

import importlib.machinery
import importlib.util
import os
import re
import shutil
import subprocess
import sys


def kit(command="rt"):
    """A command of the kit as a module: rt knows how a check is called."""
    file = os.path.join(os.path.dirname(os.path.realpath(shutil.which("rt"))), command)
    loader = importlib.machinery.SourceFileLoader(command, file)
    made = importlib.util.module_from_spec(importlib.util.spec_from_loader(command, loader))
    sys.modules[command] = made
    loader.exec_module(made)
    return made


def modules_of(crate):
    """The modules that a crate's root file names, but those of its tests."""
    root = f"{crate.folder}/src/{'main' if crate.is_program else 'lib'}.rt"
    with open(root, encoding="utf-8") as it:
        text = re.sub(r"#\[cfg\(test\)\]\s+mod \w+;", "", it.read())
        return re.findall(r"^(?:pub(?:\(crate\))? )?mod (\w+);", text, re.M)


def main(name, what, *flags):
    os.chdir(os.path.join(os.path.dirname(os.path.abspath(__file__)), ".."))
    rt = kit()
    crate = next((it for it in rt.crates_of(os.getcwd()) if it.name == name), None)
    if not crate:
        sys.exit(f"crates.txt names no crate {name}")
    wanted = modules_of(crate) if what == "ALL" else what.split(",")
    if not wanted:
        sys.exit(f"{name} has its functions in its root file alone: name them")
    words = crate.words(["--jobs", "1"], as_source=True)
    for it in wanted:
        words += ["--only", it]
    os.makedirs(f"{crate.folder}/out/from-sources", exist_ok=True)
    kept = ["--incremental", "out/from-sources", "--progress"]
    return subprocess.run([rt.rtlib.RATTLE, "check", *words, *kept, *flags], cwd=crate.folder).returncode


if __name__ == "__main__":
    sys.exit(main(*sys.argv[1:]) if len(sys.argv) > 2 else __doc__)

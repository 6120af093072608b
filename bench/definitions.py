#!/usr/bin/env python3
"""Writes a repository in which a crate stands over definitions alone, so that it can be checked long before the crates below it are proved.

usage: python3 bench/definitions.py TO CRATE [WHOLE..]

TO gets CRATE and each crate WHOLE as they are, and of every other crate that their definitions, or those of CRATE, name: its specs/ and its types,
without functions and proofs. What CRATE calls of such a crate is then written into TO by hand: the function with its contract and a body that answers
want of memory. There `rt ci` proves the crates that are left in a second or two each, and says of CRATE what it will say over the real ones.
It is for finding what does not prove, and gives no verdict: that is rt ci here.
"""

import os
import re
import shutil
import subprocess
import sys

HERE = os.path.join(os.path.dirname(os.path.abspath(__file__)), "..")
HEAD = r"(?:pub(?:\([a-z]+\))? )?"
TYPE = re.compile(HEAD + r"(?:struct|enum|type) (\w+)")
USE = re.compile(r"(" + HEAD + r"|ghost )use (.*?)(?:(::|\.)\{(.*)\})?;$")


def items_of(text):
    """The items of a file in the kit's layout, each with the comments and attributes above it."""
    above, item = [], []
    for line in text.split("\n"):
        if not item and (not line or line.startswith(("//", "#")) or above and above[-1].startswith("#") and line.startswith((" ", ")"))):
            above += [line] if line else []
            continue
        item.append(line)
        if line.startswith(("}", ")")) or len(item) == 1 and line.endswith((";", "}")):
            yield above, item
            above, item = [], []


def is_of_tests(above):
    return any("cfg(test)" in it for it in above)


def kept_above(above):
    """What stays above a type: its comments, its cycle, and the derives that need no function of another type's."""
    for line in above:
        if line.startswith("#[derive"):
            derived = [it for it in re.findall(r"\w+", line)[1:] if it in ("Clone", "Copy", "Drop")]
            line = f"#[derive({', '.join(derived)})]" if derived else None
        if line and not line.startswith("//!"):
            yield line


def is_ghost(item):
    """Whether the item is an impl of ghost members alone, as a type's view and invariant."""
    body = "\n".join(item)
    return item[0].startswith("impl") and "ghost " in body and not re.search(r"\bfn ", body)


def use_of(item, body, types):
    """What stays of an import: the names that the kept items mention, or, where others import it from here, that are types."""
    head, path, between, names = USE.match(" ".join(it.strip() for it in item)).groups()
    listed = [it.strip() for it in names.split(",") if it.strip()] if names else [path]

    def is_used(name):
        name = re.split(r" as |::|\.", name)[-1]
        if head.startswith("pub"):
            return name in types
        parts = [it for it in name.split("◌") if it]
        return any(it in body for it in parts) if "◌" in name else re.search(rf"(?<![\w-]){re.escape(name)}(?![\w-])", body)

    used = [it for it in listed if is_used(it)]
    return [f"{head}use {path}{between}{{{', '.join(used)}}};" if names else f"{head}use {path};"] if used else []


def types_only(text, types):
    """A source file with its types alone."""
    found = [(above, item) for above, item in items_of(text) if not is_of_tests(above)]
    kept = [(above, item) for above, item in found if TYPE.match(item[0]) or is_ghost(item)]
    body = "\n".join("\n".join(item) for _, item in kept)
    lines = [it for it in text.split("\n") if it.startswith(("//!", "#!["))]
    for _, item in found:
        if re.match(HEAD + r"mod \w+;", item[0]):
            lines += item
        elif USE.match(" ".join(it.strip() for it in item)):
            lines += use_of(item, body, types)
    for above, item in kept:
        lines += [*kept_above(above), *(it for it in item if not re.match(r"\s+#\[(error|from)\b", it))]
    return "\n".join(lines) + "\n"


def sources(folder):
    for below, _, names in os.walk(f"{folder}/src"):
        yield from (f"{below}/{it}" for it in names if it.endswith(".rt"))


def read(file):
    with open(file, encoding="utf-8") as it:
        return it.read()


def write(file, text):
    os.makedirs(os.path.dirname(file), exist_ok=True)
    with open(file, "w", encoding="utf-8") as it:
        it.write(text)


def modules(folder):
    """The files that the crate's root reaches by items `mod` outside of tests."""
    files, left = {f"{folder}/src/lib.rt"}, [(f"{folder}/src/lib.rt", f"{folder}/src")]
    while left:
        file, beside = left.pop()
        for above, item in items_of(read(file)):
            named = re.match(HEAD + r"mod (\w+);", item[0])
            below = f"{beside}/{named[1]}" if named and not is_of_tests(above) else ""
            for found in (f"{below}.rt", f"{below}/mod.rt") if below else ():
                if os.path.isfile(found):
                    files.add(found)
                    left.append((found, below))
    return files


def copy_types(crate, to):
    """Writes the definitions and types of a crate, and returns all of their text."""
    if os.path.isdir(f"{crate}/specs"):
        shutil.copytree(f"{crate}/specs", f"{to}/specs")
    types = {TYPE.match(item[0])[1] for it in sources(crate) for _, item in items_of(read(it)) if TYPE.match(item[0])}
    for file in modules(crate):
        write(to + file[len(crate) :], types_only(read(file), types))
    specs = [f"{below}/{it}" for below, _, names in os.walk(f"{to}/specs") for it in names]
    return "\n".join(read(it) for it in [*sources(to), *specs])


def main(to, crate, *whole):
    whole = {crate, *whole}
    rows = [it.partition(":") for it in read(f"{HERE}/crates.txt").split("\n") if it.strip()]
    uses, needed = {name: rest.split() for name, _, rest in rows}, {}
    for name in [*uses][::-1]:
        if name != crate and not any(name in it for it in needed.values()):
            continue
        made = f"{to}/crates/{name}"
        if name in whole:
            shutil.copytree(f"{HERE}/crates/{name}", made, ignore=shutil.ignore_patterns("out"))
            needed[name] = uses[name]
        else:
            text = copy_types(f"{HERE}/crates/{name}", made)
            needed[name] = [it for it in uses[name] if it not in uses or re.search(rf"\b{it}(::|\.)", text)]
    write(f"{to}/crates.txt", "".join(f"{it}: {' '.join(needed[it])}\n" for it in [*needed][::-1]))
    shutil.copy(f"{HERE}/HANDLES", to)
    subprocess.run(["git", "init", "-q", to], check=True)
    print(f"{len(needed)} crates, {len(whole)} of them whole")


if __name__ == "__main__":
    main(*sys.argv[1:]) if len(sys.argv) > 2 else sys.exit(__doc__)

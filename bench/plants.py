#!/usr/bin/env python3
"""rt plant over the libraries that a run of the gate built in another checkout, with time for crates whose checks are long.

usage: python3 bench/plants.py GATE CRATE [--over-only] [flags of rt plant]

GATE is the checkout in which `rt ci` has proved, or is proving, this text. Run it in a checkout of its own, since it writes out/ there. With --over-only
there are no plants that give up, but only those that call the real function. A batch is of 12 plants and may take 40 minutes.
"""

import os
import shutil
import sys

from check_from_sources import kit


def main(gate, name, *flags):
    here, made, flags = os.getcwd(), kit("rt-plant"), [*flags]
    made.BATCH, made.SECONDS = 12, 2400
    if "--over-only" in flags:
        flags.remove("--over-only")
        made.bodies.Bodies.giving_up = lambda bodies: []
    of_kit, below, known = made.rt.Crate, made.rt.Crate.below, {}
    of_kit.below = lambda crate: known.setdefault(crate.folder, below(crate))
    of_kit.is_built, of_kit.build_rlib = lambda crate: True, lambda crate, flags, anew: 0
    os.chdir(f"{here}/crates/{name}")
    for it in of_kit(os.getcwd(), here, {}, name=name).below():
        built = f"{gate}/crates/{it.name}/out/rlib"
        if not os.path.isdir(f"{built}/{it.name}.rlib"):
            sys.exit(f"{it.name} is not built in {gate} yet")
        shutil.rmtree(f"{it.folder}/out/rlib", ignore_errors=True)
        shutil.copytree(built, f"{it.folder}/out/rlib")
    return made.main(name, "--max", "2000", "--minutes", "900", "--jobs", "1", *flags)


if __name__ == "__main__":
    sys.exit(main(*sys.argv[1:]) if len(sys.argv) > 2 else __doc__)

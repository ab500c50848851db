#!/usr/bin/env python3
"""mark_proved.py FOLDER: writes the stamps by which `rt lib` takes what `rt ci` has just proved in FOLDER. It needs rt.

`rt ci` proves a static library, but doesn't build it. `rt lib` builds it, and first proves each crate below it again, unless a
stamp says from which text that crate was built. `rt ci` writes no stamps. If a crate's text changes later, its stamp no longer fits,
and `rt lib` proves it again. Stamps that are there already stay: they came back with the work of earlier checks, and are of its text.
"""

import os
import subprocess
import sys
from pathlib import Path

kit = Path(subprocess.run(["rt", "doc"], capture_output=True, text=True, check=True).stdout.strip()).parent
sys.path.insert(0, str(kit / "bin"))
sys.dont_write_bytecode = True
import rtlib  # noqa: E402

stamp_of, stamps = rtlib.Crate.stamp, {}


def stamp(crate):
    """The crate's stamp. Each is made once, since a stamp asks for those of the crates below along every way that leads to them."""
    if crate.folder not in stamps:
        stamps[crate.folder] = stamp_of(crate)
    return stamps[crate.folder]


rtlib.Crate.stamp = stamp
root = os.path.realpath(sys.argv[1])
os.chdir(root)
built = {crate: Path(crate.rlib).parent / "stamp" for crate in rtlib.crates_below(root) if os.path.isdir(crate.rlib)}
if not any(file.exists() for file in built.values()):
    for crate, file in built.items():
        file.write_text(crate.stamp())

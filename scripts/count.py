#!/usr/bin/env python3
"""Prints how many instructions statements take through bin/rtsh, by valgrind's callgrind: the same number on every machine.

The rows are loaded with and without the statements of one kind after them, and the difference is theirs. ROWS gives the number of
rows. It ends with status 1 if a SELECT of all rows takes more instructions a row than it may. It needs valgrind, and bin/rtsh, which
make builds.
"""

import os
import re
import shutil
import subprocess
import sys
import tempfile
from concurrent.futures import ThreadPoolExecutor
from pathlib import Path

ROOT = Path(__file__).resolve().parent.parent
RTSH = ROOT / "bin" / "rtsh"
ROWS = int(os.environ.get("ROWS", "10000"))

sys.path.insert(0, str(ROOT / "bench"))
sys.dont_write_bytecode = True
from statements import CREATE, KINDS, Scripts  # noqa: E402

COUNTS = {"few": 1000, "few_loose": 1000, "many": 100, "many_loose": 100, "all": 10, "ids": 10, "updates": 1000, "deletes": 1000}

# The most instructions that a row may take.
MOST = {"all": 283, "ids": 150}


def instructions(statements):
    """The number of instructions that a run of these statements takes, from the start of the program to its end."""
    with tempfile.TemporaryDirectory() as folder:
        script = Path(folder) / "script.sql"
        script.write_text("".join(f"{it}\n" for it in statements))
        command = ["valgrind", "--tool=callgrind", f"--callgrind-out-file={folder}/out", str(RTSH), "run", str(script)]
        ran = subprocess.run(command, stdout=subprocess.DEVNULL, stderr=subprocess.PIPE, text=True)
    counted = re.search(r"Collected : (\d+)", ran.stderr)
    if ran.returncode or not counted:
        sys.exit(ran.stderr)
    return int(counted[1])


def main():
    """Counts each kind, and says which take more than they may."""
    if not shutil.which("valgrind") or not RTSH.exists():
        sys.exit("count: valgrind or bin/rtsh is missing; make builds bin/rtsh")
    scripts = Scripts(ROWS)
    load = [CREATE, *scripts.inserts(1)]
    added = {kind: [scripts.statement(kind) for _ in range(count)] for kind, count in COUNTS.items()}
    with ThreadPoolExecutor(len(os.sched_getaffinity(0))) as pool:
        empty, loaded = pool.submit(instructions, [CREATE]), pool.submit(instructions, load)
        totals = {kind: pool.submit(instructions, load + statements) for kind, statements in added.items()}
    print(f"{ROWS} rows: instructions a statement")
    print(f"{'insert':<40} {(loaded.result() - empty.result()) / ROWS:12,.0f}")
    status = 0
    for kind, total in totals.items():
        each = (total.result() - loaded.result()) / len(added[kind])
        note = ""
        if kind in MOST:
            row = round(each / ROWS)
            note = f", {row} a row of at most {MOST[kind]}"
            if row > MOST[kind]:
                note, status = f"{note}: too many", 1
        print(f"{KINDS[kind]:<40} {each:12,.0f}{note}")
    return status


if __name__ == "__main__":
    sys.exit(main())

#!/usr/bin/env python3
"""Runs the recipes of docs/GUIDE.md and the programs of examples/ that they name, and compares what they print.

If a program is missing, a line says what was left out. rtsh isn't run: the worked cases say what it prints of these scripts, and
make test and make gate run them.
"""

import random
import re
import shutil
import subprocess
import sys
import tempfile
from pathlib import Path

ROOT = Path(__file__).resolve().parent.parent
DATA = ROOT / "crates" / "test_cases" / "data"
AWK, PYTHON = ["-f", ROOT / "examples/degrees.awk", "-v", "table=trees"], [sys.executable, ROOT / "examples/degrees.py", "trees"]

# Lines in degrees, and the boxes in ten millionths, counted by hand: of numbers that aren't whole, minima fall and maxima rise.
DEGREES = """\
1,89.2772,89.27720001,-0.5,1,oak's
2,-0.00000001,-0.00000001,-89.99999999,-89.99999999,
3,1e-05,1.5E1,-1e-05,-0.0,x
4,13.4050000,13.4050001,.5,5.
5,-179.99999991,-179.99999991,89.99999991,89.99999991,
6, 214.7483647, 214.74836471, -214.7483648, -214.74836471
7,west,300,1.2.3,,x
"""
WHOLE = """\
1,892772000,892772001,-5000000,10000000,'oak''s'
2,-1,0,-900000000,-899999999,NULL
3,100,150000000,-100,0,'x'
4,134050000,134050001,5000000,50000000,NULL
5,-1800000000,-1799999999,899999999,900000000,NULL
6,2147483647,2147483648,-2147483648,-2147483647,NULL
7,west,3000000000,1.2.3,,'x'
"""

# Another version may write line breaks in another way.
SQLITE = "3.40.1"
TREES = """\
CREATE VIRTUAL TABLE trees USING rtree_i32(id, west, east, +name, +height);
INSERT INTO trees VALUES (1, 10, 14, 'it''s a|b', NULL);
INSERT INTO trees VALUES (2, -2147483648, 2147483647, 'two' || char(10) || 'lines|''', 1.5);
INSERT INTO trees VALUES (3, 3, 3, X'00270A7CFF', 9223372036854775807);
INSERT INTO trees VALUES (-4, 4, 5, NULL, '');
INSERT INTO trees VALUES (5, 5, 6, '''', char(252) || '|' || char(13, 10) || '1|2|3|NULL|4');
INSERT INTO trees VALUES (6, 6, 6, -9223372036854775808, NULL);
"""
ROWS = "SELECT id || '|' || west || '|' || east || '|' || quote(name) || '|' || quote({}) FROM trees ORDER BY id"


def run(command, given="", folder=ROOT):
    """What a command prints; carriage returns stay."""
    ran = subprocess.run(command, input=given.encode(), stdout=subprocess.PIPE, stderr=subprocess.STDOUT, cwd=folder)
    return ran.stdout.decode(errors="surrogateescape")


def inserts(lines):
    return "".join(f"INSERT INTO trees VALUES ({line});\n" for line in lines.splitlines())


def recipe(name):
    """The block of the guide whose fence says ```sh NAME, if there is one."""
    found = re.search(rf"^```sh {name}\n(.*?)^```$", (ROOT / "docs/GUIDE.md").read_text(), re.M | re.S)
    return found and found[1]


def case(name):
    return (DATA / name).read_bytes().decode()


def degrees(*command):
    """The lines above, and random ones as Python's fractions have them."""
    yield run(command, DEGREES), inserts(WHOLE)
    rolls = random.Random(1)
    numbers = [f"{rolls.uniform(-180, 180):.{rolls.randrange(12)}f}" for _ in range(8000)]
    lines = "".join(f"{id},{','.join(numbers[4 * id : 4 * id + 4])}\n" for id in range(2000))
    yield run(command, lines), run(PYTHON, lines)


def missing(program):
    return None if shutil.which(program) else f"{program} is missing"


def missing_module():
    table = "import sqlite3; sqlite3.connect('').execute('CREATE VIRTUAL TABLE t USING rtree_i32(id, a, b)')"
    return None if run([sys.executable, "-c", table]) == "" else "Python has no sqlite3 with rtree_i32"


def through_sqlite(folder):
    """rtsh gets the script of a worked case by each recipe, and what it prints of it goes back into the database."""
    (folder / "bin").mkdir()
    for name in ("examples", "scripts"):
        (folder / name).symlink_to(ROOT / name)
    shell = folder / "bin" / "rtsh"
    run(["sqlite3", "map.db"], TREES, folder)
    rows = ["sqlite3", "map.db", ROWS.format("height")]
    yield case("sqlite_by_quote.out"), run(["sqlite3", "map.db", ROWS.format("CAST(height AS TEXT)")], folder=folder)
    yield "INSERT INTO trees " in run(["sqlite3", "map.db", ".dump"], folder=folder), False
    # A refusal leaves the database as it was. What goes back last has texts in place of REALs.
    texts = case("sqlite_by_quote.out")
    for name, wanted in (("mode_insert", run(rows, folder=folder)), ("quote", texts), ("from_sqlite", texts)):
        if not recipe(f"guide_{name}"):
            continue
        printed = DATA / f"sqlite_by_{'mode_insert' if name == 'mode_insert' else 'quote'}.out"
        shell.write_text(f"#!/bin/sh\ncat > given\nexec cat {printed}\n")
        shell.chmod(0o755)
        run(["bash", "-c", recipe(f"guide_{name}") + recipe("guide_to_sqlite")], folder=folder)
        if name == "quote" or (name == "mode_insert" and run(["sqlite3", "--version"]).startswith(SQLITE + " ")):
            yield (folder / "given").read_bytes().decode(), case(f"sqlite_by_{name}.sql")
        yield run(rows, folder=folder), wanted


def as_inserts():
    """It prints the script that sqlite3 wrote, except the order and the first and last statement."""
    script = case("sqlite_by_quote.sql")
    printed = run([sys.executable, ROOT / "examples/inserts.py", "trees"], case("sqlite_by_quote.out"))
    between = re.split(r"(?<=;)\n", script)[1:-2]
    yield sorted(re.split(r"(?<=;)\n", printed)[:-1]), sorted(between)


def tests(folder):
    """The name of each test, why it is left out, if it is, and pairs of what was given and what was wanted."""
    for awk in ("mawk", "gawk"):
        yield f"degrees in {awk}", missing(awk), degrees(awk, *AWK)
    yield "degrees in Python", None, degrees(*PYTHON)
    yield "SQLite and back", missing("sqlite3") or missing_module(), through_sqlite(folder)
    yield "rows as INSERTs", None, as_inserts()


def main():
    """Runs all, and says how each ended."""
    failed = 0
    with tempfile.TemporaryDirectory() as folder:
        for name, reason, pairs in tests(Path(folder)):
            wrong = None if reason else next(((given, wanted) for given, wanted in pairs if given != wanted), None)
            failed += wrong is not None
            if reason:
                print(f"{name} was left out: {reason}")
            elif wrong:
                print(f"{name} failed: {wrong[0]!r} in place of {wrong[1]!r}")
            else:
                print(f"{name} passed")
    return 1 if failed else 0


if __name__ == "__main__":
    sys.exit(main())

#!/usr/bin/env python3
"""bench_python.py [FOLDER]: prints how long many rows and many windows take from Python, and how far each figure is from its bound.

The calls are those of bench/arrays.py: of this package, of shapely's STRtree and of the package rtree, as far as they are installed.
The programs run by turns, and the least time counts. What they found is compared. ROWS gives the number of rows, WINDOWS of windows. It
needs the library of lib/, which make bindings builds, or of FOLDER.
"""

import os
import subprocess
import sys
from typing import NamedTuple, Tuple

TOP = os.path.join(os.path.dirname(os.path.abspath(__file__)), "..")
FOLDER = os.path.abspath(sys.argv[1] if len(sys.argv) > 1 else os.path.join(TOP, "lib"))
ROWS, WINDOWS = (os.environ.get(name, number) for name, number in (("ROWS", "1000000"), ("WINDOWS", "100000")))
TURNS = {"juicedelta": 3, "shapely": 3, "rtree": 1}  # A turn of rtree takes the most of a minute.


class Bound(NamedTuple):
    """A time over another one, which is to be at most `most`. If a program has no call for many windows, its single calls count."""

    name: str
    most: float
    own: Tuple[str, str]
    other: Tuple[str, str]


BOUNDS = [
    Bound("rows at once, over shapely's", 0.5, ("juicedelta", "load"), ("shapely", "load")),
    Bound("rows at once, over rtree's", 0.1, ("juicedelta", "load"), ("rtree", "load")),
    Bound("windows in a call, over shapely's", 0.3, ("juicedelta", "many"), ("shapely", "many")),
    Bound("windows in a call, over rtree's", 0.02, ("juicedelta", "many"), ("rtree", "many")),
    Bound("windows in a call of four workers, over calls", 0.1, ("juicedelta", "shared"), ("juicedelta", "calls")),
]


def python(name):
    """The command, or None if no python3 has the module."""
    for program in ("python3", "/usr/bin/python3"):
        if subprocess.run([program, "-c", f"import {name}"], stdout=subprocess.DEVNULL, stderr=subprocess.DEVNULL).returncode == 0:
            return [program, "-B", os.path.join(TOP, "bench", "arrays.py"), name, ROWS, WINDOWS]
    print(f"{name} is left out: python3 has no module {name}")
    return None


def measure(commands):
    """The least time of each call. The programs have to find the same, and `many` the same as `calls`."""
    best, sums = {}, {}
    for turn in range(max(TURNS.values())):
        for name, command in commands.items():
            if turn >= TURNS[name]:
                continue
            answer = subprocess.run(command, stdout=subprocess.PIPE, check=True, text=True)
            for call, time, found in map(str.split, answer.stdout.splitlines()):
                best[name, call] = min(int(time), best.get((name, call), int(time)))
                if sums.setdefault(call == "load", found) != found:
                    sys.exit(f"{name} answers {call} otherwise than another call, program or turn")
    return best


def main():
    """Measures the programs, and prints times and bounds."""
    os.environ["JUICEDELTA_LIBRARY"] = os.path.join(FOLDER, "libjuicedelta.so")
    os.environ["PYTHONPATH"] = os.path.join(TOP, "bindings", "python")
    commands = {name: command for name in TURNS if (command := python(name))}
    best = measure(commands)
    print(f"\nPython, {ROWS} rows and {WINDOWS} windows of about ten: nanoseconds a row or a window")
    print(f"{'':16}" + "".join(f"{name:>14}" for name in commands))
    for call in ("load", "many", "calls", "shared"):
        print(f"{call:16}" + "".join(f"{best.get((name, call), '-'):>14}" for name in commands))
    print()
    for bound in BOUNDS:
        own, other = best[bound.own], best.get(bound.other) or best.get((bound.other[0], "calls"))
        if other:
            print(f"{bound.name:46} {own / other:8.3f}, at most {bound.most:7.2f}{'' if own / other <= bound.most else ', missed'}")


if __name__ == "__main__":
    main()

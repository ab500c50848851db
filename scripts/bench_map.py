#!/usr/bin/env python3
"""bench_map.py [FOLDER]: prints how long the work of a map program takes, and each figure beside its bound, if it has one.

The work is that of bench/map.cpp: rows loaded at once, windows, nearest rows, moves, joins, many windows in a call, trees that are kept,
threads, and moves that are told to the windows that see them. Boost's rtree and libspatialindex do what they can of it, if they are
installed. All stay there with their trees and take turns at each kind of work, and the least time counts. What they found is compared.
ROWS gives the numbers of rows, TURNS how many turns each takes; above 1,000,000 no tree is made row by row. It needs g++ and the
libraries of lib/, which make bindings builds, or of FOLDER.
"""

import os
import subprocess
import sys
import tempfile
from itertools import chain
from typing import Callable, Dict, NamedTuple, Optional

TOP = os.path.join(os.path.dirname(os.path.abspath(__file__)), "..")
FOLDER = os.path.abspath(sys.argv[1] if len(sys.argv) > 1 else os.path.join(TOP, "lib"))
ROWS = [int(rows) for rows in os.environ.get("ROWS", "100000 1000000 10000000").split()]
TURNS = int(os.environ.get("TURNS", "3"))
MOST_INSERTED = 1_000_000
# Kinds of work that a packed tree is enough for, and those that need one into which each row was inserted. Kinds that are compared with
# each other take their turns together, since a machine's pace changes.
PACKED = ["load", "packed", "joins", "many", "threads"]
INSERTED = ["kept", "insert", "packed inserted", "nearest", "moves", "crowds", "told_10000", "told_100000", "pans"]

Times = Dict[str, float]


class Bound(NamedTuple):
    """A figure of the work, and what it is to be at most, if there is a bound."""

    name: str
    most: Optional[float]
    figure: Callable[[Times, Times], float]


def least(boost: Times, work: str) -> float:
    """Boost's time by nodes of 51 cells or of 16, the less of both."""
    return min(boost[work], boost["small_" + work])


def there_and_back(own: Times, work: str) -> float:
    """The time of a change, and of the one that takes it back."""
    return own[work] + own[work + "_back"]


# Own times and Boost's. A bound whose times are missing isn't printed.
BOUNDS = [
    Bound("rows at once, over Boost's packing", 1.3, lambda own, boost: own["load"] / boost["load"]),
    Bound("resident bytes a row", 64, lambda own, boost: own["bytes"]),
    Bound("window of ten, packed, over Boost's packed", 0.75, lambda own, boost: own["packed_10"] / boost["packed_10"]),
    Bound("window of a thousand, the same", 0.75, lambda own, boost: own["packed_1000"] / boost["packed_1000"]),
    Bound("window of ten, packed over inserted", 1, lambda own, boost: own["packed_10"] / own["inserted_10"]),
    Bound("window of a thousand, the same", 1, lambda own, boost: own["packed_1000"] / own["inserted_1000"]),
    Bound("dump opened, ns a row", 1300, lambda own, boost: own["open_dump"]),
    Bound("bytes of a tree, a row", 40, lambda own, boost: own["bytes_bytes"]),
    Bound("bytes written, ns a row", 300, lambda own, boost: own["to_bytes"]),
    Bound("bytes opened, ns a row", 700, lambda own, boost: own["open_bytes"]),
    Bound("nearest row, over Boost's rstar<51>", 0.9, lambda own, boost: own["nearest_1"] / boost["nearest_1"]),
    Bound("nearest ten, the same", 0.9, lambda own, boost: own["nearest_10"] / boost["nearest_10"]),
    Bound("nearest row, over Boost's rstar<16>", 1, lambda own, boost: own["nearest_1"] / boost["small_1"]),
    Bound("nearest ten, the same", 1, lambda own, boost: own["nearest_10"] / boost["small_10"]),
    Bound("move, over remove and insert", 0.8, lambda own, boost: there_and_back(own, "move") / there_and_back(own, "replace")),
    Bound("join, over a search for each row", 0.4, lambda own, boost: own["join"] / own["asked"]),
    Bound("join, over Boost's search for each row", 0.4, lambda own, boost: own["join"] / boost["asked"]),
    Bound("many windows in a call, over calls", 0.9, lambda own, boost: own["many"] / own["calls"]),
    Bound("four threads' time for a window, over one's", 1 / 3.2, lambda own, boost: own["four_threads"] / own["one_thread"]),
    Bound("move told to 10,000 windows, over rstar<51>", 0.35, lambda own, boost: own["told_10000"] / boost["told_10000"]),
    Bound("the same, over rstar<16>", None, lambda own, boost: own["told_10000"] / boost["small_told_10000"]),
    Bound("the same, ns above a plain move", 1500, lambda own, boost: own["told_10000"] - own["move"]),
    Bound("move told to 100,000 windows, over rstar<51>", 0.4, lambda own, boost: own["told_100000"] / boost["told_100000"]),
    Bound("the same, over rstar<16>", None, lambda own, boost: own["told_100000"] / boost["small_told_100000"]),
    Bound("move that 1,000 windows see, over the better", 1, lambda own, boost: own["crowd"] / least(boost, "crowd")),
    Bound("move that one window over all sees, the same", 1, lambda own, boost: own["all_seen"] / least(boost, "all_seen")),
    Bound("window that pans, over two searches", 1, lambda own, boost: own["shift"] / own["two_searches"]),
]


def compiled(room, name, *words):
    """The program, or None if it can't be compiled here."""
    program = os.path.join(room, name)
    command = ["g++", "-O2", "-std=c++17", "-pthread", "-Ibench", "-Ibindings/c", "bench/map.cpp", *words, "-o", program]
    if subprocess.run(command, cwd=TOP, stdout=subprocess.DEVNULL, stderr=subprocess.DEVNULL).returncode == 0:
        return program
    print(f"{name} is left out: `{' '.join(command[:-2])}` fails here")
    return None


def ask(process, work):
    """The times of a kind of work, and what it found."""
    process.stdin.write(work + "\n")
    process.stdin.flush()
    for line in process.stdout:
        if line == "\n":
            return
        part, time, found = line.split()
        yield part, float(time), found
    sys.exit(f"a program ended at {work}")


def measure(programs, rows):
    """The least times of each program. The programs have to find the same."""
    running = {
        name: subprocess.Popen([program, str(rows)], stdin=subprocess.PIPE, stdout=subprocess.PIPE, text=True)
        for name, program in programs.items()
    }
    best = {name: {} for name in programs}
    found = {}
    for work in PACKED + (INSERTED if rows <= MOST_INSERTED else []):
        for _ in range(TURNS):
            for name, process in running.items():
                for part, time, answer in chain.from_iterable(ask(process, kind) for kind in work.split()):
                    best[name][part] = min(time, best[name].get(part, time))
                    if found.setdefault(part, answer) != answer:
                        sys.exit(f"{name} answers {part} otherwise than another program or turn")
    for process in running.values():
        process.communicate()
    return best


def report(best, rows):
    names = list(best)
    print(f"\n{rows} rows: nanoseconds, or bytes a row")
    print(f"{'':16}" + "".join(f"{name:>14}" for name in names))
    for work in best[names[0]]:
        print(f"{work:16}" + "".join(f"{best[name].get(work, float('nan')):>14.0f}".replace("nan", "  -") for name in names))
    print()
    for bound in BOUNDS:
        try:
            figure = bound.figure(best["juicedelta"], best.get("boost", {}))
        except KeyError:
            continue
        wanted = "" if bound.most is None else f", at most {bound.most:7.2f}{'' if figure <= bound.most else ', missed'}"
        print(f"{bound.name:46} {figure:8.2f}{wanted}")


def main():
    """Measures all programs at each number of rows."""
    with tempfile.TemporaryDirectory() as room:
        programs = {
            "juicedelta": compiled(room, "juicedelta", os.path.join(FOLDER, "libjuicedelta.a")),
            "boost": compiled(room, "boost", "-DPEER_BOOST"),
            "spatialindex": compiled(room, "spatialindex", "-DPEER_SPATIALINDEX", "-lspatialindex_c", "-lspatialindex"),
        }
        if programs["juicedelta"] is None:
            sys.exit(1)
        for rows in ROWS:
            # libspatialindex needs some 190 bytes a row, and minutes for 10,000,000.
            report(measure({name: program for name, program in programs.items() if program and (rows <= MOST_INSERTED or name != "spatialindex")}, rows), rows)


if __name__ == "__main__":
    main()

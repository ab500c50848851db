#!/usr/bin/env python3
"""bench_bindings.py [FOLDER]: prints how long calls of the library take.

From C beside the calls from C++, Boost's rstar<51> and libspatialindex; from Python beside python3-rtree and sqlite3. What isn't
installed is left out, and a line says so. The programs run by turns, three times each, and the least time of a call counts. What
they found is compared. ROWS gives the number of rows. It needs g++ and the libraries of lib/, which make bindings builds, or of
FOLDER.
"""

import os
import subprocess
import sys
import tempfile

TOP = os.path.join(os.path.dirname(os.path.abspath(__file__)), "..")
FOLDER = os.path.abspath(sys.argv[1] if len(sys.argv) > 1 else os.path.join(TOP, "lib"))
ROWS = os.environ.get("ROWS", "100000")
TURNS = 3


def works(*command, **options):
    try:
        return subprocess.run(command, stdout=subprocess.DEVNULL, stderr=subprocess.DEVNULL, **options).returncode == 0
    except FileNotFoundError:
        return False


def compiled(room, name, *words):
    program = os.path.join(room, name)
    command = ["g++", "-O2", "-std=c++17", "-Ibench", "-Ibindings/c", "bench/calls.cpp", *words, "-o", program]
    if works(*command, cwd=TOP):
        return [program, "2", "uniform", ROWS]
    print(f"{name} is left out: `{' '.join(command[:-2])}` fails here")
    return None


def python(name, module):
    for program in ("python3", "/usr/bin/python3"):
        if works(program, "-c", f"import {module}"):
            return [program, "-B", os.path.join(TOP, "bench", "calls.py"), name, ROWS]
    print(f"{name} is left out: python3 has no module {module}")
    return None


def run(command):
    """The nanoseconds of each kind of call, and its checksum."""
    answer = subprocess.run(command, stdout=subprocess.PIPE, check=True, text=True)
    return {name: (round(float(time)), sum) for name, time, sum in map(str.split, answer.stdout.splitlines())}


def measure(language, programs):
    programs = {name: command for name, command in programs.items() if command}
    best = {}
    for _ in range(TURNS):
        for name, command in programs.items():
            for call, (time, sum) in run(command).items():
                before = best.get((name, call), (time, sum))
                if before[1] != sum:
                    sys.exit(f"{name} answers {call} otherwise than before")
                best[name, call] = (min(time, before[0]), sum)
    names = list(programs)
    print(f"\n{language}, {ROWS} rows, nanoseconds a call, or bytes a row; after the strokes Juicedelta's time from {language} over that")
    print(f"{'':12}" + "".join(f"{name:>24}" for name in names))
    for call in [call for name, call in best if name == names[0] and call != "left"]:
        own = best[names[0], call][0]
        times = [best.get((name, call)) for name in names]
        texts = [f"{time[0]} / {own / max(time[0], 1):.2f}" if time else "-" for time in times]
        print(f"{call:12}" + "".join(f"{text:>24}" for text in texts))
    for name, call in best:
        if (names[0], call) in best and best[name, call][1] != best[names[0], call][1]:
            sys.exit(f"{name} answers {call} otherwise than {names[0]}")


def main():
    """Measures the calls from C, and those from Python."""
    os.environ["JUICEDELTA_LIBRARY"] = os.path.join(FOLDER, "libjuicedelta.so")
    os.environ["PYTHONPATH"] = os.path.join(TOP, "bindings", "python")
    library = os.path.join(FOLDER, "libjuicedelta.a")
    with tempfile.TemporaryDirectory() as room:
        measure("C", {
            "juicedelta": compiled(room, "juicedelta", library),
            "c++": compiled(room, "c++", "-DWRAPPER", "-Ibindings/cpp", library),
            "boost": compiled(room, "boost", "-DPEER_BOOST"),
            "spatialindex": compiled(room, "spatialindex", "-DPEER_SPATIALINDEX", "-lspatialindex_c", "-lspatialindex"),
        })
    measure("Python", {
        "juicedelta": python("juicedelta", "juicedelta"),
        "rtree": python("rtree", "rtree"),
        "sqlite3": python("sqlite3", "sqlite3"),
    })


if __name__ == "__main__":
    main()

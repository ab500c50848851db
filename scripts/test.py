#!/usr/bin/env python3
"""Runs all tests and worked cases, as many side by side as there are processors, and proves nothing: `make gate` does that.

A task is a trial, `rt try`, which compiles a crate and all crates below it with run-time checks. There is one for each crate with
tests, and some for rtsh: the worked scripts and dumps, the same with an allocation refused, and scripts that dump a tree after each
statement. Two tasks compile nothing: the documents are compared with the cases, and the guide's recipes run if their programs are
there. A line tells how each task ended; all that a trial said is in bin/test. It needs rt.
"""

import os
import re
import subprocess
import sys
import tempfile
import time
from concurrent.futures import ThreadPoolExecutor, as_completed
from pathlib import Path

ROOT = Path(__file__).resolve().parent.parent
LOGS = ROOT / "bin" / "test"
CRATES = ROOT / "crates"

sys.path.insert(0, str(ROOT / "faults"))
sys.dont_write_bytecode = True
import cases  # noqa: E402
import follow  # noqa: E402

WORKED = cases.cases(CRATES / "test_cases" / "data")
# The allocation that is refused in each third of them: in most scripts one of the first statement's, and a later one.
REFUSED_ALLOCATIONS = {40: WORKED[::3], 100: WORKED[1::3]}
# How long a crate's tests may take, since the machine may be busy.
SECONDS = "300"


def tried(name, crate, words):
    """What a trial of a crate said."""
    ran = subprocess.run(["rt", "try", *words], cwd=CRATES / crate, stdin=subprocess.DEVNULL, capture_output=True)
    said = (ran.stdout + ran.stderr).decode(errors="replace")
    (LOGS / f"{name}.log").write_text(said)
    return said


def documents():
    """Compares the documents' sessions with the worked cases."""
    ran = subprocess.run([ROOT / "scripts" / "check_documents"], capture_output=True, text=True)
    return (1, []) if ran.returncode == 0 else (0, ran.stdout.splitlines())


def recipes():
    """Runs the recipes of the guide, and says which are left out."""
    ran = subprocess.run([ROOT / "scripts" / "test_recipes.py"], capture_output=True, text=True)
    lines = ran.stdout.splitlines() + ran.stderr.splitlines()[-1:]
    for line in lines:
        if " was left out: " in line:
            print(f"        {line}", flush=True)
    right = [line for line in lines if line.endswith(" passed")]
    return len(right), [line for line in lines if line not in right and " was left out: " not in line]


def tests_of(crate):
    """Runs a crate's tests."""
    said = tried(crate, crate, ["--test", "--seconds", SECONDS])
    results = dict(re.findall(r"^test (\S+) \.\.\. (ok|FAILED)$", said, re.M))
    if not re.search(r"^test result: ", said, re.M):
        return 0, ["no result"]
    right = [name for name, result in results.items() if result == "ok"]
    return len(right), sorted(results.keys() - set(right))


def of_cases(name, worked, *words, is_right):
    """Runs these worked scripts and dumps, and judges each by its line of what the trial says."""
    with tempfile.TemporaryDirectory() as folder:
        for case in worked:
            given = Path(folder) / case.name
            given.write_bytes(case.given)
            given.with_name(f"{case.name}.args").write_text("".join(f"{word}\n" for word in case.words))
            given.with_name(f"{case.name}.stdout").write_bytes(case.wanted.printed)
        said = tried(name, "rtsh", [*words, "--cases", folder])
    lines = re.findall(r"^case=(\S+) run=(\S+) status=(\S+) .*output=(\S+)", said, re.M)
    ended = {name for name, *how in lines if is_right(name, *how)}
    wrong = [case.name for case in worked if case.name not in ended]
    return len(worked) - len(wrong), wrong


def as_wanted(name, worked):
    """Each prints what it must, and ends with its status."""
    wanted = {case.name: ("ended", str(case.wanted.status), "expected") for case in worked}
    return of_cases(name, worked, is_right=lambda name, *how: tuple(how) == wanted[name])


def followed_trees():
    """Each prints after each statement the tree that a second program has by the rules alone."""
    return as_wanted("trees", follow.cases())


def with_refused(allocation, worked):
    """None stops at a fault, with an allocation refused: it goes on, or says that memory ran out."""
    def is_right(_, run, status, __):
        return run == "ended" and status in ("0", "1", "3")

    return of_cases(f"cases-{allocation}", worked, "--fail-alloc", str(allocation), is_right=is_right)


def with_tests():
    """The crates that have tests: those of trees and scripts, which take longest, come first."""
    found = {file.relative_to(CRATES).parts[0] for file in CRATES.glob("*/src/*.rt") if "#[test]" in file.read_text()}
    return sorted(found, reverse=True)


def main():
    """Runs all tasks, and says how many tests and cases passed."""
    LOGS.mkdir(parents=True, exist_ok=True)
    began, passed, failed = time.monotonic(), 0, 0
    # What takes longest comes first.
    tasks = {"documents": (documents,), "recipes": (recipes,), "worked scripts and dumps": (as_wanted, "cases", WORKED)}
    tasks["scripts beside a plain tree"] = (followed_trees,)
    tasks.update({crate: (tests_of, crate) for crate in with_tests()})
    for allocation, worked in REFUSED_ALLOCATIONS.items():
        tasks[f"scripts and dumps, allocation {allocation} refused"] = (with_refused, allocation, worked)
    with ThreadPoolExecutor(len(os.sched_getaffinity(0))) as pool:
        running = {pool.submit(*task): name for name, task in tasks.items()}
        for task in as_completed(running):
            right, wrong = task.result()
            passed, failed = passed + right, failed + len(wrong)
            print(f"{time.monotonic() - began:4.0f} s  {running[task]}: {right} passed", flush=True)
            for line in wrong:
                print(f"        FAILED: {line}", flush=True)
    print(f"{passed} passed, {failed} failed")
    return 1 if failed else 0


if __name__ == "__main__":
    sys.exit(main())

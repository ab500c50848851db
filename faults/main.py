"""Injects faults into the built program, gives it hard devices, and compares its trees with a plain one.

scripts/faults runs it: main.py ROOT LIBRARY PROGRAM.. has the checkout, the library that has calls fail, and the programs to test.
"""

import os
import subprocess
import sys
import time
from concurrent.futures import ProcessPoolExecutor
from pathlib import Path

import calls
import cases
import devices
import follow
import rows
import tests
from program import Outcome, Program, Report

CALLS = {
    "each allocation refused": calls.growths_refused,
    "each write refused": calls.writes_refused,
    "each read refused": calls.reads_refused,
    "reads and writes of one byte": calls.small_moves,
}

# Tests, their crates, and how they are tried.
TESTS = [
    ("test_tree", "growth::refused_growth_changes_nothing", tests.growths_refused),
    ("test_script", "growth::a_shadow_stays_as_it_was", tests.growths_refused),
    ("test_script", "growth::a_dump_is_read_or_memory_is_wanting", tests.growths_refused),
    ("test_script", "committing::plans_are_carried_out", tests.none_between),
]


def tried(check, *given):
    """What a check answers; if a run doesn't end, or can't be started, that is what is wrong."""
    try:
        return check(*given)
    except (subprocess.TimeoutExpired, OSError) as fault:
        return repr(fault)


def check_devices(report, program):
    """One check for each hard device, and one for the most rows."""
    for name, check in {**devices.CHECKS, "1,048,576 rows, and one more": rows.full_table}.items():
        report.add(name, tried(check, program))


def start_calls(pool, program, worked):
    """Starts a check for each worked script or dump and each way to fail."""
    return [
        (f"{case.name}: {how}", pool.submit(tried, check, program, case))
        for how, check in CALLS.items()
        for case in worked
    ]


def end_calls(report, started):
    """Reports these checks once each has ended."""
    for name, checked in started:
        answer = checked.result()
        wrong, note = answer if isinstance(answer, tuple) else (answer, "")
        report.add(f"{name} ({note})", wrong)


def printed_as_wanted(program, case):
    """What is wrong, unless the run gave just what it must and said nothing."""
    outcome = program.run(case.words, case.given)
    return None if outcome == case.wanted and not outcome.complained else str(outcome)


def check_trees(report, program, followed):
    """One check for each script that dumps its tree after each statement, beside a second program."""
    for case in followed:
        report.add(f"{case.name}: the plain tree's dumps", tried(printed_as_wanted, program, case))


def check_tests(report, root, library):
    """One check for each test of TESTS, as rt ci built it."""
    for crate, name, check in TESTS:
        path = root / "crates" / crate / "out" / f"{crate}_tests"
        wrong, note = f"{path} is missing: rt ci builds it", ""
        if path.is_file():
            wrong, note = check(Program(path, library), name)
        report.add(f"{crate} {name} ({note})", wrong)


def all_statements(root):
    """A script of each kind of statement, which shows after each what was changed. A second program worked out what it prints,
    from the rules of tables and trees alone."""
    given, printed = ((root / "faults" / f"statements.{ending}").read_bytes() for ending in ("sql", "out"))
    return cases.Case("all statements", ("run", "--capacity", "5"), given, Outcome(1, printed))


def main(root, library, *paths):
    """Checks each program of these paths. A pool of processes tries failing calls; meanwhile this one tries devices."""
    report, root, began = Report(), Path(root), time.monotonic()
    worked = [*cases.cases(root / "crates" / "test_cases" / "data"), all_statements(root)]
    followed = follow.cases()
    programs = [Program(path, library) for path in paths]
    with ProcessPoolExecutor(len(os.sched_getaffinity(0))) as pool:
        started = [start_calls(pool, program, worked) for program in programs]
        for program, calls in zip(programs, started):
            print(f"== {program.path}", flush=True)
            check_devices(report, program)
            check_trees(report, program, followed)
            end_calls(report, calls)
    check_tests(report, root, library)
    print(f"took {time.monotonic() - began:.0f} s", flush=True)
    print(f"{report.passed} passed, {report.failed} failed")
    return 1 if report.failed or not paths else 0


if __name__ == "__main__":
    sys.exit(main(*sys.argv[1:]))

#!/usr/bin/env python3
"""Prints how long statements take through bin/rtsh, beside sqlite3's shell if that is installed.

Both programs read from a pipe, sqlite3 in one transaction. They are loaded, and then get the same statements by turns. What
counts is the processor time that a program took from one line to another: so no statement's time includes the loading, and
what else the machine does slows both programs alike. Both run on one processor, and this script on others. The lines that both print
are compared. ROWS gives the numbers of rows, ROUNDS how often each kind of statement takes its turn. It needs Linux, for /proc
and the choice of a processor, and bin/rtsh, which make builds.
"""

import fcntl
import filecmp
import os
import shutil
import statistics
import struct
import subprocess
import sys
import tempfile
import termios
import time

ROWS = [int(rows) for rows in os.environ.get("ROWS", "1000 10000 100000 1048576").split()]
ROUNDS = int(os.environ.get("ROUNDS", "5"))
PROCESSORS = os.sched_getaffinity(0)
OWN = {max(PROCESSORS)}  # of the programs that are timed

sys.path.insert(0, os.path.join(os.path.dirname(os.path.abspath(__file__)), "..", "bench"))
sys.dont_write_bytecode = True
from statements import CREATE, KINDS, Scripts, of_a_hundredth  # noqa: E402


class Program:
    """A program that reads statements, with what it printed so far in a file."""

    def __init__(self, command, printed):
        self.printed = printed
        with open(printed, "wb") as out:
            self.process = subprocess.Popen(command, stdin=subprocess.PIPE, stdout=out)
        os.sched_setaffinity(self.process.pid, OWN)

    def proc(self, name):
        with open(f"/proc/{self.process.pid}/{name}", encoding="utf-8") as it:
            return it.read()

    def microseconds(self):
        return int(self.proc("schedstat").split()[0]) / 1000

    def is_waiting(self):
        """Whether it sleeps before an empty pipe."""
        unread = fcntl.ioctl(self.process.stdin.fileno(), termios.FIONREAD, bytes(4))
        return struct.unpack("i", unread) == (0,) and self.proc("stat").rpartition(")")[2].split()[0] == "S"

    def feed(self, statements):
        """The microseconds of the processor that the statements took."""
        before = self.microseconds()
        self.process.stdin.write("".join(f"{it}\n" for it in statements).encode())
        self.process.stdin.flush()
        while self.process.poll() is None:
            taken = self.microseconds()
            time.sleep(0.02)
            # Between two statements it may wait for a moment, and so is looked at twice.
            if self.is_waiting() and self.microseconds() == taken:
                return taken - before
        sys.exit(f"a program ended before its script did, with status {self.process.returncode}")

    def peak(self):
        """The most memory that it held, in MB."""
        return next(int(it.split()[1]) // 1024 for it in self.proc("status").split("\n") if it.startswith("VmHWM:"))

    def end(self):
        self.process.stdin.close()
        self.process.wait()


def line(name, times):
    """Prints the median time of a statement; of two programs, both times and their ratio."""
    own, *peer = [statistics.median(its) for its in times]
    beside = f"  /{peer[0]:9.2f} us = {ratio(*times)}" if peer else ""
    print(f"{name:<38} {own:8.2f} us{beside}", flush=True)


def ratio(times, others):
    """The median of the ratios of the turns, and the least and the greatest of them."""
    ratios = [one / other for one, other in zip(times, others)]
    return f"{statistics.median(ratios):.3f} ({min(ratios):.3f} to {max(ratios):.3f})"


def in_order(printed):
    """The printed lines, sorted as text, since sqlite3 gives rows in any order unless it is asked for one."""
    subprocess.run(["sort", "-o", printed, printed], env={"LC_ALL": "C"}, check=True)
    return printed


def programs(folder):
    """rtsh, and sqlite3 if it is there, before their first statement, with nothing printed."""
    started = [Program(["bin/rtsh", "run"], f"{folder}/own")]
    peer = shutil.which("sqlite3")
    if peer:
        started.append(Program([peer], f"{folder}/peer"))
        started[1].feed(["BEGIN;"])
    return started


def in_turn(turn, programs):
    """The programs' numbers, each second time the other way round."""
    numbers = range(len(programs))
    return numbers if turn % 2 == 0 else reversed(numbers)


def loaded(rows, load, folder):
    """Both programs, loaded; the loading of few rows is timed in several turns."""
    times, turns = [[], []], ROUNDS if rows <= 100000 else 1
    for turn in range(turns):
        both = programs(folder)
        for at in in_turn(turn, both):
            times[at].append(both[at].feed(load) / rows)
        if turn + 1 < turns:
            end(both)
    line("insert, one row a statement", times[: len(both)])
    return both


def end(programs):
    for it in programs:
        it.end()


def measure(rows, folder):
    print(f"{rows} rows")
    scripts = Scripts(rows)
    both = loaded(rows, [CREATE, *scripts.inserts(1)], folder)
    print("  memory " + " / ".join(f"{it.peak()} MB" for it in both))
    times = {kind: [[] for _ in both] for kind in KINDS}
    many = 1000 if rows <= 100000 else 200
    whole = 10 if rows <= 100000 else 1
    counts = {"few": 20000, "few_loose": 20000, "many": many, "many_loose": many, "all": whole, "ids": whole}
    counts.update({"updates": 20000, "deletes": min(20000, rows // 20)})
    for turn in range(ROUNDS):
        for kind, count in counts.items():
            statements = [scripts.statement(kind) for _ in range(count)]
            for at in in_turn(turn, both):
                times[kind][at].append(both[at].feed(statements) / count)
    for kind, name in KINDS.items():
        line(name, times[kind])
        if kind == "ids":
            print("  over SELECT *: " + " / ".join(ratio(*both_kinds) for both_kinds in zip(times["ids"], times["all"])))
    print("  memory " + " / ".join(f"{it.peak()} MB" for it in both))
    end(both)
    if len(both) == 2 and not filecmp.cmp(*(in_order(it.printed) for it in both), shallow=False):
        sys.exit("the two programs printed different rows")

    again = programs(folder)
    load = [CREATE, *scripts.inserts(100)]
    line("insert, 100 rows a statement", [[it.feed(load) / (len(load) - 1)] for it in again])
    # sqlite3 has no watched windows to compare with.
    again[0].feed([f".watch v FROM t WHERE {scripts.window(of_a_hundredth(scripts.side))};"])
    updates = [scripts.statement("updates") for _ in range(20000)]
    line("update by id, a window watched", [[again[0].feed(updates) / len(updates)]])
    end(again)


def main():
    """Measures tables of all sizes."""
    os.chdir(os.path.join(os.path.dirname(os.path.abspath(__file__)), ".."))
    os.sched_setaffinity(0, PROCESSORS - OWN or OWN)
    print("\nmicroseconds of the processor a statement takes through rtsh; after a stroke sqlite3's, in one transaction, and the ratio,")
    print(f"with its least and greatest; medians of {ROUNDS} turns, and one loading above 100000 rows")
    with tempfile.TemporaryDirectory() as folder:
        for rows in ROWS:
            measure(rows, folder)


if __name__ == "__main__":
    main()

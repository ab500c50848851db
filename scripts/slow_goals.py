#!/usr/bin/env python3
"""slow_goals.py NAME [FLAGS..]: runs `rt check` in crates/NAME, and prints which functions took most processor time, by parts.
slow_goals.py --kept NAME: prints which goals took the prover most steps, which are the same on each machine.

rattle writes a file as it ends each part of a function's proof, so what its thread used from one file to the next is what that part
took. `Lts` is the part that tells what is borrowed: it grows with a function's calls and exits times its variables. `Proof` has the
goals that tactics find, and `Answers` those that the crate proves. What out/ keeps isn't checked again: to see all, remove
crates/NAME/out first. FLAGS are those of `rt check`, which gets one job unless they say how many. It needs rt and strace.

The steps are read from what `rt check` kept in out/, so nothing is run. They leave out `Lts`. If a goal was proved several times, the
least number counts; a goal that is no longer in the text may still be listed.
"""

import os
import re
import subprocess
import sys
import tempfile
import threading
import time
from bisect import bisect
from collections import Counter, defaultdict
from pathlib import Path

CRATES = Path(__file__).resolve().parent.parent / "crates"
SHOWN = 30
EVERY = 0.05
GOAL = re.compile(rb'"name":"([^"]+)".*?"phases":\[([\d,]+)\]')
PART = re.compile(r"(\d+)\s+(\d+\.\d+) (?:.*?--@ module (\S+?)\\n)?")


class Used:
    """What each thread of rattle has used by when, looked up every few hundredths of a second while a check runs."""

    def __init__(self, folder):
        self.folder, self.at, self.seconds, self.ended = str(folder), defaultdict(list), defaultdict(list), threading.Event()

    def watch(self):
        while not self.ended.wait(EVERY):
            now = time.time()
            for process in filter(str.isdigit, os.listdir("/proc")):
                try:
                    self.note(Path("/proc", process), now)
                except OSError:  # It has just ended.
                    pass

    def note(self, process, now):
        if os.path.basename(os.readlink(process / "exe")) == "rattle" and os.readlink(process / "cwd") == self.folder:
            for thread in (process / "task").iterdir():
                self.at[thread.name].append(now)
                self.seconds[thread.name].append(int((thread / "schedstat").read_text().split()[0]) / 1e9)

    def by(self, thread, at):
        """What the thread had used by then, between two looks in proportion."""
        times, seconds = self.at[thread], self.seconds[thread]
        if not times or at <= times[0]:
            return 0.0
        place = bisect(times, at)
        if place == len(times):
            return seconds[-1]
        share = (at - times[place - 1]) / (times[place] - times[place - 1])
        return seconds[place - 1] + share * (seconds[place] - seconds[place - 1])


def parts(trace, used):
    """Yields each part's name, and what its thread used since it ended the part before."""
    before = Counter()
    for line in trace:
        found = PART.match(line)
        if found and found[3]:
            by = used.by(found[1], float(found[2]))
            yield found[3], by - before[found[1]]
            before[found[1]] = by


def kept_goals(folder):
    """The goals whose proofs a check kept, the dearest first: millions of steps, and the goal's module and name."""
    least = {}
    for file in folder.glob("out/incremental/*/records/*.decls.oantt"):
        module = file.name.split("-proofs.", 1)[-1].removesuffix(".decls.oantt")
        for name, phases in GOAL.findall(file.read_bytes()):
            steps, goal = sum(map(int, phases.split(b","))), f"{module} {name.decode()}"
            least[goal] = min(steps, least.get(goal, steps))
    return sorted(((steps / 1e6, goal) for goal, steps in least.items()), reverse=True)


def main():
    if len(sys.argv) == 3 and sys.argv[1] == "--kept":
        goals = kept_goals(CRATES / sys.argv[2])
        if not goals:
            sys.exit(f"crates/{sys.argv[2]} keeps no work of a check: run rt check there")
        for steps, goal in goals[:SHOWN]:
            print(f"{steps:6.1f} million steps  {goal}")
        return 0
    if len(sys.argv) < 2 or not (CRATES / sys.argv[1]).is_dir():
        sys.exit(__doc__)
    folder = CRATES / sys.argv[1]
    used, of = Used(folder), defaultdict(Counter)
    with tempfile.TemporaryDirectory() as room:
        trace = os.path.join(room, "trace")
        words = ["strace", "-f", "--seccomp-bpf", "-ttt", "-s", "400", "-e", "trace=write", "-e", "signal=none", "-o", trace]
        watcher = threading.Thread(target=used.watch, daemon=True)
        watcher.start()
        jobs = [] if "--jobs" in sys.argv else ["--jobs", "1"]
        status = subprocess.run([*words, "rt", "check", *jobs, *sys.argv[2:]], cwd=folder).returncode
        used.ended.set()
        watcher.join()
        with open(trace, errors="replace") as lines:
            for name, seconds in parts(lines, used):
                function, _, part = name.rpartition(".")
                of[function.removeprefix("Rattle-")][part] += seconds
    for function, times in sorted(of.items(), key=lambda one: -one[1].total())[:SHOWN]:
        most = ", ".join(f"{part} {seconds:.1f}" for part, seconds in times.most_common(4) if seconds >= 0.2)
        print(f"{times.total():6.1f} s  {function or 'the start'}: {most}")
    return status


if __name__ == "__main__":
    sys.exit(main())

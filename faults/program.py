"""The program under test: how it is run, and what came of it."""

import os
import subprocess
from dataclasses import dataclass, field
from pathlib import Path

SECONDS = 120


@dataclass(frozen=True)
class Outcome:
    """A run's status and output, its error output, and whether a call of it was made to fail."""

    status: int
    printed: bytes
    complained: bytes = field(default=b"", compare=False)
    met: bool = field(default=False, compare=False)

    def failed_with(self, fault, printed=b""):
        """Whether the run ended at a fault of this name, with one line of it, and had printed this much."""
        begins = self.complained.startswith(b"rtsh: " + fault.encode())
        is_line = self.complained.endswith(b"\n") and self.complained.count(b"\n") == 1
        return self.status == 3 and self.printed == printed and begins and is_line

    def __str__(self):
        return f"status {self.status}, printed {shortened(self.printed)}, said {shortened(self.complained)}"


def shortened(text):
    """The text for a message."""
    return repr(text) if len(text) <= 300 else f"{text[:150]!r} .. {text[-100:]!r} ({len(text)} bytes)"


class Program:
    """A program, and the library that has its calls fail."""

    def __init__(self, path, library):
        self.path = str(Path(path).resolve())
        self.library = str(Path(library).resolve())

    def run(self, words, given=b"", **how):
        """Runs it on these bytes."""
        ran = subprocess.run(
            [self.path, *words], input=given, capture_output=True, timeout=SECONDS, **how
        )
        return Outcome(ran.returncode, ran.stdout, ran.stderr)

    def run_with(self, words, given=b"", **calls):
        """Runs it on these bytes while calls fail: `calls` are the variables of refuse.c."""
        reading, writing = os.pipe()
        environment = {"LD_PRELOAD": self.library, "TOLD": str(writing)}
        environment.update({name: str(value) for name, value in calls.items()})
        try:
            outcome = self.run(words, given, env=environment, pass_fds=[writing])
        finally:
            os.close(writing)
        with os.fdopen(reading, "rb") as told:
            met = bool(told.read())
        return Outcome(outcome.status, outcome.printed, outcome.complained, met)


class Report:
    """Prints a line for each check, and counts them."""

    def __init__(self):
        self.passed = 0
        self.failed = 0

    def add(self, name, wrong):
        """A check, which has passed if nothing is wrong."""
        if wrong:
            self.failed += 1
            print(f"FAILED: {name}: {wrong}", flush=True)
        else:
            self.passed += 1
            print(f"passed: {name}", flush=True)

"""The worked scripts and dumps, with what each must print, and the pieces of a script."""

import re
from dataclasses import dataclass
from pathlib import Path

from program import Outcome

GAP = re.compile(rb"(?:[\t\n\x0c\r ;]+|--[^\n]*(?:\n|\Z)|/\*.*?(?:\*/|\Z))*", re.DOTALL)
DOT_LINE = re.compile(rb"\.[^\n]*")
STATEMENT = re.compile(
    rb"""(?:[^;'"/-]+|'[^']*(?:'|\Z)|"[^"]*(?:"|\Z)|--[^\n]*(?:\n|\Z)|/\*.*?(?:\*/|\Z)|[^;])*(?:;|\Z)""",
    re.DOTALL,
)


@dataclass(frozen=True)
class Case:
    """A script or a dump."""

    name: str
    words: tuple
    given: bytes
    wanted: Outcome

    @property
    def is_script(self):
        return self.words[0] == "run"


def cases(folder):
    """The cases of the list, except those of many dumps."""
    found = []
    for line in (Path(folder) / "cases.txt").read_text().splitlines():
        words = line.split()
        if words and words[0] != "#" and not line.startswith("#") and words[2] != "check-fronts":
            found.append(case(Path(folder), *words))
    return found


def case(folder, name, status, command, *options):
    """The case of a line of the list."""
    words, letters, options = [command], None, iter(options)
    for option in options:
        if option == "--fill":
            letters = int(next(options))
        elif option == "--capacity":
            words += [option, next(options)]
        elif option != "--cuts":
            words.append(option)
    ending = "sql" if command == "run" else "dump"
    given = (folder / f"{name}.{ending}").read_bytes()
    if letters is not None:
        given = given.replace(b"@", b"a" * letters)
    wanted = Outcome(int(status), (folder / f"{name}.out").read_bytes())
    return Case(name, tuple(words), given, wanted)


def pieces(script):
    """For each piece of a script: where it begins, where it ends, and how many bytes of the script say that it has ended, or None
    if only the script's own end says so."""
    found, at = [], GAP.match(script).end()
    while at < len(script):
        is_line = script.startswith(b".", at)
        end = (DOT_LINE if is_line else STATEMENT).match(script, at).end()
        has_ended = end < len(script) if is_line else script.endswith(b";", at, end)
        found.append((at, end, end + is_line if has_ended else None))
        at = GAP.match(script, end).end()
    return found


def with_refused(script, number):
    """The script with a piece that is refused in place of the nth, counted from 1."""
    start, end, _ = pieces(script)[number - 1]
    return script[:start] + b"FOO;" + script[end:]

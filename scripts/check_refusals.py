#!/usr/bin/env python3
"""check_refusals.py LOG [--write]: compares what refused each must-fail edit with faults/refusals.txt.

LOG has what `rt ci` or `rt must-fail` printed; `make gate` leaves it in bin/gate.log. A line of the list names an edit, and the first
goal that the prover left open: its file, and its clause. No line or column stands there, so code may move in its file; and what rt
kept of an earlier run it prints again word by word. If another goal refuses an edit than before, the edit may show nothing of the
contract that it attacks: look at it, then run this with --write.
"""

import re
import sys
from pathlib import Path

ROOT = Path(__file__).resolve().parent.parent
LIST = ROOT / "faults" / "refusals.txt"
HEAD = "# EDIT: FILE CLAUSE, the first goal that the prover leaves open; scripts/check_refusals.py writes this list.\n"
TOLD = re.compile(r"^rt: must-fail (\S+)\.edit: (.*)$", re.MULTILINE)
REFUSED = "refused, as it must be"
GOAL = re.compile(r"(?:note: )?(?:\./)?(\S+?):\d+:\d+: (.*)")

# rt cuts a message off, and a longer line number leaves fewer letters of it. At least these are always there.
LETTERS = 60

# What rt says before the goal if the contract isn't what refused the edit.
REASONS = {"only by a limit of the prover": "(by a limit) ", "only because a proof file names": "(by a name) "}


def goal(told):
    """The file and the clause of what was told of a refused edit."""
    reason = next((short for words, short in REASONS.items() if words in told), "")
    found = GOAL.search(told)
    if not found:
        return reason + (told.strip(" :")[:LETTERS] or "no goal")
    file, message = found.groups()
    clause = re.search(r"`([^`]+)", message)
    return f"{reason}{file} {(clause[1] if clause else message)[:LETTERS]}"


def read_log(log):
    """The goals of the edits that were refused, and what was said of the others."""
    told = dict(TOLD.findall(Path(log).read_text(errors="replace")))
    refused = {edit: goal(words.removeprefix(REFUSED)) for edit, words in told.items() if words.startswith(REFUSED)}
    return refused, {edit: words for edit, words in told.items() if edit not in refused}


def read_list():
    """The goals of the list, by their edits."""
    lines = LIST.read_text().splitlines() if LIST.exists() else []
    return dict(line.split(": ", 1) for line in lines if not line.startswith("#"))


def differences(edits, refused, others, listed):
    """What doesn't agree, a line each. A log of some crates alone says nothing of the edits of others."""
    yield from (f"{edit} is listed, and is no edit" for edit in sorted(listed.keys() - edits))
    for edit in sorted(edits):
        if edit in others:
            yield f"{edit} is not refused: {others[edit]}"
        elif edit not in listed:
            yield f"{edit} is not listed; it is refused by: {refused.get(edit, 'the log has no word of it')}"
        elif refused.get(edit, listed[edit]) != listed[edit]:
            yield f"{edit} is refused by: {refused[edit]}; before by: {listed[edit]}"


def main(log, *words):
    """Compares, or writes the list anew. Edits of which the log has no word keep their lines."""
    edits = {f"{file.parts[-3]}/{file.stem}" for file in ROOT.glob("crates/*/must-fail/*.edit")}
    (refused, others), listed = read_log(log), read_list()
    found = list(differences(edits, refused, others, listed))
    for line in found:
        print(f"refusals: {line}")
    if words == ("--write",):
        listed = {edit: it for edit, it in {**listed, **refused}.items() if edit in edits}
        LIST.write_text(HEAD + "".join(f"{edit}: {it}\n" for edit, it in sorted(listed.items())))
        print(f"refusals: wrote faults/refusals.txt, {len(listed)} of {len(edits)} edits")
        return 0
    if found:
        print(f"refusals: look at these; then scripts/check_refusals.py {log} --write writes what refuses them to faults/refusals.txt")
    print(f"refusals: {len(edits)} edits, {len(refused)} refused in this log, {len(found)} not as faults/refusals.txt has them")
    return 1 if found else 0


if __name__ == "__main__":
    if len(sys.argv) not in (2, 3) or sys.argv[2:] not in ([], ["--write"]):
        sys.exit("check_refusals.py LOG [--write]")
    sys.exit(main(*sys.argv[1:]))

"""Each allocation, read and write of a run fails once.

Each check answers what is wrong, or None, and how many runs met a failure, in words.
"""

import itertools
import re
from functools import lru_cache

import cases

REFUSED = re.compile(rb"^refused (\d+) 20: out of memory\n", re.MULTILINE)

# Writes fail up to this byte of an output, and longer scripts are not read byte by byte.
MOST_PRINTED = 400
MOST_READ = 500


def growths_refused(program, case):
    """Refuses each allocation in turn, until a run meets no refusal. Each run says that memory ran out and prints nothing, or
    prints what the script prints if at most one piece is refused."""
    ended = marked = 0

    @lru_cache(maxsize=None)
    def with_refused(number):
        printed = program.run(case.words, cases.with_refused(case.given, number)).printed
        syntax, memory = b"refused %d 1: syntax error\n" % number, b"refused %d 20: out of memory\n" % number
        if "--echo" in case.words:
            start, end, _ = cases.pieces(case.given)[number - 1]
            syntax, memory = b"FOO;\n" + syntax, case.given[start:end] + b"\n" + memory
        return printed.replace(syntax, memory, 1)

    for allocation in itertools.count(1):
        outcome = program.run_with(case.words, case.given, REFUSE_ALLOCATION=allocation)
        refused = REFUSED.findall(outcome.printed)
        if not outcome.met:
            wrong = None if outcome == case.wanted else f"with nothing refused: {outcome}"
            return wrong, f"{ended} ended the run, {marked} refused a piece"
        if outcome.failed_with("out of memory"):
            ended += 1
        elif case.is_script and len(refused) == 1 and outcome.status == 1 and not outcome.complained:
            marked += 1
            if outcome.printed != with_refused(int(refused[0])):
                return f"allocation {allocation} refused: {outcome}", ""
        elif outcome != case.wanted:
            return f"allocation {allocation} refused: {outcome}", ""


def writes_refused(program, case):
    """Has the output fail after each number of bytes, or take none from there on. Then each write of one byte fails in turn,
    and those after it would succeed. The device has the bytes that it took before, and nothing more."""
    printed = case.wanted.printed
    rooms = range(min(len(printed), MOST_PRINTED))
    for room in rooms:
        for how in ("REFUSE_AFTER", "REFUSE_EMPTY"):
            outcome = program.run_with(case.words, case.given, **{how: room})
            if not outcome.failed_with("write fault", printed[:room]):
                return f"{how} at {room} bytes: {outcome}", ""
        outcome = program.run_with(case.words, case.given, SHORT=1, REFUSE_WRITE=room + 1)
        if not outcome.failed_with("write fault", printed[:room]):
            return f"write {room + 1} of one byte: {outcome}", ""
    return None, f"at each of {len(rooms)} bytes"


def reads_refused(program, case):
    """Has each read of one byte fail in turn. A script prints the lines of the pieces that were complete before, a dump none."""
    if len(case.given) > MOST_READ:
        return None, "longer than is tried"
    ends = [ended_by for _, _, ended_by in cases.pieces(case.given) if ended_by]

    @lru_cache(maxsize=None)
    def printed_by(end):
        return program.run(case.words, case.given[:end]).printed if end else b""

    for read in itertools.count(1):
        outcome = program.run_with(case.words, case.given, SHORT=1, REFUSE_READ=read)
        if not outcome.met:
            return None, f"{read - 1} reads"
        complete = [end for end in ends if end < read] if case.is_script else []
        if not outcome.failed_with("read fault", printed_by(max(complete, default=0))):
            return f"read {read} of one byte refused: {outcome}", ""


def small_moves(program, case):
    """Reads and writes of one byte, all of them and then each alone, change nothing."""
    outcome = program.run_with(case.words, case.given, SHORT=1)
    if outcome != case.wanted or outcome.complained:
        return f"by single bytes: {outcome}", ""
    for call in itertools.count(1):
        outcome = program.run_with(case.words, case.given, SHORT_AT=call)
        if outcome != case.wanted or outcome.complained:
            return f"call {call} moved one byte: {outcome}", ""
        if not outcome.met:
            return None, f"{call - 1} calls"

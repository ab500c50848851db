"""Runs tests of the crates with an allocation refused: each in turn, or those of calls that must ask for none."""

import itertools


def growths_refused(tests, name):
    """Refuses each allocation of a test in turn, until a run meets no refusal; the test passes each time. Answers what is
    wrong, and how many were refused, in words."""
    for allocation in itertools.count(1):
        outcome = tests.run_with([name], REFUSE_ALLOCATION=allocation)
        if not passed(outcome):
            return f"allocation {allocation} refused: {outcome}", ""
        if not outcome.met:
            return None, f"{allocation - 1} allocations refused"


def none_between(tests, name):
    """Refuses the first allocation between a `<` and a `>` that a test prints, and must meet none. Answers what is wrong, and
    how many such pairs there were, in words."""
    outcome = tests.run_with([name], REFUSE_ALLOCATION=1, BETWEEN=1)
    pairs = outcome.complained.count(b"<>")
    if not passed(outcome) or outcome.met or not pairs:
        return f"an allocation between the marks: {outcome}", ""
    return None, f"no allocation between {pairs} pairs of marks"


def passed(outcome):
    """Whether the test has passed."""
    return outcome.status == 0 and outcome.printed.endswith(b"test result: ok\n")

"""Scripts whose table is dumped after each statement, with what they must print by the rules of the R*-tree alone.

    python3 faults/follow.py FOLDER

writes them to FOLDER.
"""

import sys
from collections.abc import Iterator
from itertools import chain
from pathlib import Path

from cases import Case
from plain_tree import Box, Tree
from program import Outcome

# `rt try` gives no answer if a script prints more than 1 MiB.
MOST_PRINTED = 1_000_000

CREATE = {
    1: "CREATE VIRTUAL TABLE t USING rtree_i32(id,a,b);",
    2: "CREATE VIRTUAL TABLE t USING rtree_i32(id,a,b,c,d);",
    3: "CREATE VIRTUAL TABLE t USING rtree_i32(id,a,b,c,d,e,f);",
}

# On each axis, the step from a box to the next one, the space in which they go round, and a length that is greater than theirs.
PLACES = [(37, 101, 5), (53, 89, 3), (29, 83, 7)]


def box_of(axes: int, number: int) -> Box:
    """The box drawn by a number."""
    lows = [number * step % space for step, space, _ in PLACES]
    return tuple((lo, lo + number % longest) for lo, (_, _, longest) in zip(lows[:axes], PLACES))


def inserted(tree: Tree, id: int, number: int) -> str:
    """A row comes, with the box that a number draws; answers the statement."""
    box = box_of(tree.axes, number)
    tree.insert(id, box)
    ends = ",".join(f"{lo},{hi}" for lo, hi in box)
    return f"INSERT INTO t VALUES({id},{ends});"


def deleted(tree: Tree, id: int) -> str:
    """A row goes; answers the statement."""
    tree.remove(id)
    return f"DELETE FROM t WHERE id={id};"


def updated(tree: Tree, id: int, number: int) -> str:
    """A row gets the box that a number draws; answers the statement."""
    box = box_of(tree.axes, number)
    tree.update(id, box)
    ends = ",".join(f"{low}={lo},{high}={hi}" for low, high, (lo, hi) in zip("ace", "bdf", box))
    return f"UPDATE t SET {ends} WHERE id={id};"


def in_two_places(tree: Tree) -> Iterator[str]:
    """Rows come in two places, a leaf for each, until one leaf is full. Then all go from the other one, which gets underfull, so
    that the full leaf takes in its rows while it is the root's only child. Then the rows of the full leaf go."""
    odd, even = range(1, 2 * tree.capacity, 2), range(2, tree.capacity + 2, 2)
    for id in sorted([*odd, *even]):
        yield inserted(tree, id, id % 2)
    for id in [*even, *odd]:
        yield deleted(tree, id)


def all_over(tree: Tree) -> Iterator[str]:
    """180 rows come, and go in another order. Then rows come and go by turns. Those that are left are updated twice, a few of
    them to the box that they have."""
    for id in range(1, 181):
        yield inserted(tree, id, id)
    for number in range(1, 181):
        yield deleted(tree, number * 7 % 180 + 1)
    for id in range(1, 91):
        yield inserted(tree, id, id)
        if id % 3 == 0:
            yield deleted(tree, id // 3)
    for number in range(31, 151):
        id = (number - 31) % 60 + 31
        yield updated(tree, id, id if number % 10 == 1 else number + 100)


def followed(axes: int, capacity: int) -> Iterator[Case]:
    """The statements, cut into scripts that print at most MOST_PRINTED bytes. Each script begins with the statements of those
    before it, without dumps."""
    tree = Tree(axes, capacity)
    part, done, shown, printed = 1, [CREATE[axes]], [], ""

    def case(part: int) -> Case:
        script = "\n".join([*done, *(f"{statement}\n.nodes t" for statement in shown), ""])
        name = f"tree_axes_{axes}_capacity_{capacity}_part_{part}"
        return Case(name, ("run", "--capacity", str(capacity)), script.encode(), Outcome(0, printed.encode()))

    for statement in chain(in_two_places(tree), all_over(tree)):
        dump = tree.dump()
        if len(printed) + len(dump) > MOST_PRINTED:
            yield case(part)
            part, done, shown, printed = part + 1, [*done, *shown], [], ""
        shown.append(statement)
        printed += dump
    yield case(part)


def cases() -> list[Case]:
    """All scripts."""
    return [case for axes in (1, 2, 3) for capacity in (5, 10) for case in followed(axes, capacity)]


if __name__ == "__main__":
    for case in cases():
        Path(sys.argv[1], f"{case.name}.sql").write_bytes(case.given)
        Path(sys.argv[1], f"{case.name}.out").write_bytes(case.wanted.printed)

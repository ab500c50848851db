"""Random calls of the library's trees and of a plain R*-tree: every few calls both have the same dump.

scripts/test_bindings runs it. It reaches the library through the package of bindings/python.
"""

import random

from juicedelta import RTree
from plain_tree import Box, Tree

CALLS = 1500
CALLS_A_DUMP = 10
IDS = 400


def box_of(numbers: random.Random, axes: int) -> Box:
    """A box among many others: near places are full, so that leaves split, and get underfull."""
    lows = [numbers.randrange(60) for _ in range(axes)]
    return tuple((low, low + numbers.randrange(9)) for low in lows)


def call(numbers: random.Random, tree: RTree, plain: Tree, ids: list[int], is_growing: bool) -> None:
    """One call of both: a row comes, moves or goes."""
    box = box_of(numbers, plain.axes)
    ends = [low for low, _ in box] + [high for _, high in box]
    kind = numbers.randrange(10)
    if len(ids) < IDS and (not ids or kind < (6 if is_growing else 2)):
        id = numbers.randrange(1 << 40)
        if id not in tree:
            ids.append(id)
            tree.insert(id, ends)
            plain.insert(id, box)
        return
    place = numbers.randrange(len(ids))
    if kind < 8:
        tree.move(ids[place], ends)
        plain.update(ids[place], box)
        return
    tree.delete(ids[place])
    plain.remove(ids.pop(place))


def follow(axes: int, capacity: int) -> None:
    """Half of the calls mostly insert, and half mostly move and remove."""
    numbers, tree, plain, ids = random.Random(axes * capacity), RTree(axes, capacity), Tree(axes, capacity), []
    for turn in range(CALLS):
        call(numbers, tree, plain, ids, turn < CALLS // 2)
        if turn % CALLS_A_DUMP == 0:
            assert tree.dump() == plain.dump(), f"{axes} axes, capacity {capacity}, call {turn}"
    tree.clear()
    assert tree.dump() == Tree(axes, capacity).dump()


if __name__ == "__main__":
    for axes in (1, 2, 3):
        for capacity in (5, 51):
            follow(axes, capacity)
    print("the trees are those of the rules")

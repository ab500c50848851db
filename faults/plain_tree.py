"""The R*-tree by its rules alone (Beckmann, Kriegel, Schneider, Seeger 1990; removal as in Guttman 1984), step by step.

It shares nothing with the tree of rtsh and isn't made to be fast: no box of a node is kept, and each choice is made by the costs
in full. Of equal costs the first place wins.
"""

from __future__ import annotations

from collections.abc import Iterable, Iterator, Sequence
from dataclasses import dataclass
from itertools import count
from math import prod

# The least and the greatest number on each axis.
Box = tuple[tuple[int, int], ...]


@dataclass(frozen=True)
class Row:
    """A row in a leaf."""

    id: int
    box: Box


@dataclass(eq=False)
class Node:
    """A leaf of rows, at level 0, or a node of nodes that are one level lower."""

    level: int
    cells: list[Cell]

    @property
    def box(self) -> Box:
        """The least box around its cells."""
        return hull(cell.box for cell in self.cells)


Cell = Row | Node


def hull(boxes: Iterable[Box]) -> Box:
    """The least box around some boxes."""
    return tuple((min(lo for lo, _ in ends), max(hi for _, hi in ends)) for ends in zip(*boxes))


def area(box: Box) -> int:
    """The product of the sides."""
    return prod(hi - lo for lo, hi in box)


def margin(box: Box) -> int:
    """The sum of the sides, one for each axis."""
    return sum(hi - lo for lo, hi in box)


def common(one: Box, other: Box) -> int:
    """The area that two boxes have in common."""
    return prod(max(0, min(a[1], b[1]) - max(a[0], b[0])) for a, b in zip(one, other))


def distance(one: Box, other: Box) -> int:
    """The squared distance of the doubled centres."""
    return sum((sum(a) - sum(b)) ** 2 for a, b in zip(one, other))


def best_child(node: Node, new: Box) -> Node:
    """ChooseSubtree: the child that a new box goes into."""
    boxes = [child.box for child in node.cells]

    def overlap(place: int, box: Box) -> int:
        return sum(common(box, other) for at, other in enumerate(boxes) if at != place)

    def costs(place: int) -> tuple[int, int, int]:
        """By how much its overlap with the others grows, if the children are leaves; by how much its area; its area."""
        own, widened = boxes[place], hull([boxes[place], new])
        growth = overlap(place, widened) - overlap(place, own) if node.level == 1 else 0
        return growth, area(widened) - area(own), area(own)

    return node.cells[min(range(len(boxes)), key=costs)]


def farthest(cells: Sequence[Cell], share: int) -> list[Cell]:
    """ReInsert: the share of cells whose centres are farthest from that of the box around all, the farthest first."""
    around = hull(cell.box for cell in cells)
    return sorted(cells, key=lambda cell: -distance(cell.box, around))[:share]


def cuts(cells: Sequence[Cell], axis: int, least: int) -> Iterator[tuple[list[Cell], list[Cell]]]:
    """The ways to cut the cells in two groups, of at least this number each, along an axis: sorted by lower ends, and then by upper
    ones."""
    by_lower = sorted(cells, key=lambda cell: cell.box[axis])
    by_upper = sorted(cells, key=lambda cell: cell.box[axis][::-1])
    for ordered in (by_lower, by_upper):
        for first in range(least, len(cells) - least + 1):
            yield ordered[:first], ordered[first:]


def split(cells: Sequence[Cell], axes: int, least: int) -> tuple[list[Cell], list[Cell]]:
    """Split: on the axis of the least sum of margins, the cut of the least overlap, and of these the least area."""

    def margins(axis: int) -> int:
        return sum(margin(Node(0, group).box) for cut in cuts(cells, axis, least) for group in cut)

    def costs(cut: tuple[list[Cell], list[Cell]]) -> tuple[int, int]:
        one, other = (Node(0, group).box for group in cut)
        return common(one, other), area(one) + area(other)

    return min(cuts(cells, min(range(axes), key=margins), least), key=costs)


def paths(node: Node, *above: Node) -> Iterator[tuple[Node, ...]]:
    """The node and all below it in preorder, each at the end of the path that leads to it."""
    yield *above, node
    if node.level > 0:
        for child in node.cells:
            yield from paths(child, *above, node)


def runs(cells: Sequence[Cell], capacity: int) -> Iterator[list[Cell]]:
    """The cells of each node: all that it can have, unless too few are then left for the last one."""
    while cells:
        left = len(cells)
        first = left if left <= capacity else min(capacity, left - 2 * capacity // 5)
        yield list(cells[:first])
        cells = cells[first:]


def tiled(cells: Sequence[Cell], axes: int, capacity: int) -> list[Cell]:
    """Sort-tile-recursive: the cells sorted along the first axis by their centres and cut into slabs, each slab along the next axis,
    and so on. Of equal centres the row of the lower id comes first, or the node that was made first."""
    nodes = -(-len(cells) // capacity)
    slabs = next(number for number in count(1) if number**axes >= nodes)
    places = {id(cell): cell.id if isinstance(cell, Row) else place for place, cell in enumerate(cells)}

    def ordered(part: Sequence[Cell], axis: int) -> list[Cell]:
        part = sorted(part, key=lambda cell: (sum(cell.box[axis]), places[id(cell)]))
        if axis == axes - 1:
            return part
        length = capacity * slabs ** (axes - 1 - axis)
        return [cell for start in range(0, len(part), length) for cell in ordered(part[start : start + length], axis + 1)]

    return ordered(cells, 0)


class Tree:
    """A tree of rows."""

    def __init__(self, axes: int, capacity: int) -> None:
        self.axes = axes
        self.capacity = capacity
        self.least = 2 * capacity // 5
        self.share = 3 * capacity // 10
        self.root = Node(0, [])

    def pack(self, rows: Sequence[Row]) -> None:
        """All rows at once: each level is cut into nodes, until the root can have the last one's (Leutenegger, Lopez, Edgington
        1997)."""
        level, cells = 0, list(rows)
        while len(cells) > self.capacity:
            cells = [Node(level, run) for run in runs(tiled(cells, self.axes, self.capacity), self.capacity)]
            level += 1
        self.root = Node(level, cells)

    def insert(self, id: int, box: Box) -> None:
        """A row comes."""
        self.place(0, Row(id, box))

    def remove(self, id: int) -> None:
        """A row goes. Underfull nodes are dissolved, the lowest first, and then their cells are placed again, each as an insertion
        of its own. Then a root with one child gives way to it."""
        path, row = self.found(id)
        path[-1].cells.remove(row)
        pending = []
        while len(path) > 1:
            node = path.pop()
            if len(node.cells) < self.least:
                path[-1].cells.remove(node)
                pending += [(node.level, cell) for cell in node.cells]
        for level, cell in pending:
            self.place(level, cell)
        if self.root.level > 0 and len(self.root.cells) == 1:
            self.root = self.root.cells[0]

    def update(self, id: int, box: Box) -> None:
        """A row gets a box: it goes and comes again, unless it has this box."""
        if self.found(id)[1].box != box:
            self.remove(id)
            self.insert(id, box)

    def found(self, id: int) -> tuple[list[Node], Row]:
        """The row with that id, and the path to its leaf."""
        leaves = (list(path) for path in paths(self.root) if path[-1].level == 0)
        return next((path, row) for path in leaves for row in path[-1].cells if row.id == id)

    def place(self, level: int, cell: Cell) -> None:
        """Insert: the cell goes into a node of that level; then each cell that had to leave its node is placed, the last first."""
        marked = set()
        pending = [(level, cell)]
        while pending:
            level, cell = pending.pop()
            path = [self.root]
            while path[-1].level > level:
                path.append(best_child(path[-1], cell.box))
            path[-1].cells.append(cell)
            pending += self.relieved(path, marked)

    def relieved(self, path: list[Node], marked: set[int]) -> list[tuple[int, Cell]]:
        """OverflowTreatment, from the end of the path up. The first overfull node of each level below the root gives up cells:
        they and their level are returned. Other overfull nodes are split."""
        while len(path[-1].cells) > self.capacity:
            node = path.pop()
            if path and node.level not in marked:
                marked.add(node.level)
                far = farthest(node.cells, self.share)
                node.cells = [cell for cell in node.cells if cell not in far]
                return [(node.level, cell) for cell in far]
            node.cells, others = split(node.cells, self.axes, self.least)
            if not path:
                self.root = Node(node.level + 1, [node])
                path.append(self.root)
            path[-1].cells.append(Node(node.level, others))
        return []

    def dump(self) -> str:
        """The tree as a dump, whose nodes are numbered in preorder."""
        numbers = {path[-1]: number for number, path in enumerate(paths(self.root), 1)}
        leaves = {row.id: number for node, number in numbers.items() if node.level == 0 for row in node.cells}
        lines = [f"rtree {self.axes} {self.capacity} 1 {len(numbers)} {len(leaves)}"]
        for *above, node in paths(self.root):
            parent = numbers[above[-1]] if above else "-"
            lines.append(f"node {numbers[node]} {node.level} {parent} {len(node.cells)}")
            for cell in node.cells:
                ends = " ".join(f"{lo} {hi}" for lo, hi in cell.box)
                lines.append(f"cell {cell.id if isinstance(cell, Row) else numbers[cell]} {ends}")
        lines += [f"row {id} {leaf}" for id, leaf in sorted(leaves.items())]
        return "\n".join([*lines, "end\n"])

"""The picture of a dump by its rules alone: what `rtsh draw` is to print of a tree.

    python3 faults/plain_picture.py DUMP [PROBLEMS] [--axes 1,3] [--levels 0-2] [--all]

It prints the SVG. DUMP is the text of a shadow. PROBLEMS has what `rtsh check` prints of it, if that isn't `ok`. It shares nothing
with rtsh.
"""

from __future__ import annotations

import argparse
from dataclasses import dataclass, field
from fractions import Fraction
from itertools import combinations
from math import prod
from pathlib import Path

PLOT, LEFT, UPPER, LEAST = 80000, 10000, 4000, 200
LEGEND, LINE = 89000, 1800


@dataclass
class Cell:
    """A number, and on each axis the lesser and the greater end."""

    number: int
    ends: list[tuple[int, int]]


@dataclass
class Node:
    """A node with its cells."""

    number: int
    level: int
    cells: list[Cell] = field(default_factory=list)


class Dump:
    """What a dump lists."""

    def __init__(self, text: str) -> None:
        self.nodes: list[Node] = []
        for line in text.splitlines():
            word, *numbers = line.replace("-\n", "").split(" ")
            if word == "rtree":
                self.axes, self.capacity, _, _, self.rows = map(int, numbers)
            elif word == "node":
                self.nodes.append(Node(int(numbers[0]), int(numbers[1])))
            elif word == "cell":
                number, *ends = map(int, numbers)
                pairs = [tuple(sorted(ends[at : at + 2])) for at in range(0, len(ends), 2)]
                self.nodes[-1].cells.append(Cell(number, pairs))


def percent(part: int, whole: int) -> int:
    """The hundredths, rounded down."""
    return part * 100 // whole if whole else 0


class Picture:
    """The lines of an SVG."""

    def __init__(self, dump: Dump, axes: list[int], levels: range, all_boxes: bool, problems: list[str]) -> None:
        self.dump, self.axes = dump, axes
        self.top = max((node.level for node in dump.nodes), default=0)
        chosen = [level for level in range(self.top, -1, -1) if level in levels]
        boxes = sum(len(node.cells) for node in dump.nodes if node.level in chosen)
        self.left_out = boxes > 20000 and not all_boxes and 0 in levels
        self.levels = [level for level in chosen if level or not self.left_out]
        self.problems = problems

    def span(self, axis: int) -> tuple[int, int] | None:
        """The range of all cells on an axis."""
        ends = [end for node in self.dump.nodes for cell in node.cells for end in cell.ends[axis]]
        return (min(ends), max(ends)) if ends else None

    def scaled(self, axis: int, at: int) -> int:
        """The place of a coordinate in the plot."""
        low, high = self.span_of[axis]
        return PLOT // 2 if low == high else int(Fraction(at - low, high - low) * PLOT)

    def side(self, start: int, end: int) -> tuple[int, int]:
        """The start and the length of a box's side: at least two pixels, all of them in the plot."""
        length = max(LEAST, end - start)
        return min(start, PLOT - length), length

    def box(self, level: int, cell: Cell) -> str:
        """The start of a box."""
        low, high = (self.scaled(self.axes[0], end) for end in cell.ends[self.axes[0]])
        across, wide = self.side(low, high)
        if len(self.axes) == 2:
            low, high = (self.scaled(self.axes[1], end) for end in cell.ends[self.axes[1]])
            down, tall = self.side(PLOT - high, PLOT - low)
        else:
            band = PLOT // (self.top + 1)
            down, tall = band * (self.top - level), band * 9 // 10
        return f'<rect x="{LEFT + across}" y="{UPPER + down}" width="{wide}" height="{tall}">'

    def shared(self, one: Cell, other: Cell) -> int:
        """The area that two cells have in common."""
        sides = [min(one.ends[a][1], other.ends[a][1]) - max(one.ends[a][0], other.ends[a][0]) for a in self.axes]
        return prod(max(0, side) for side in sides)

    def text(self) -> str:
        """The whole picture."""
        dump, top = self.dump, self.top
        self.span_of = {axis: self.span(axis) for axis in self.axes}
        start = LEGEND + LINE * (4 + top)
        height = start + LINE * (1 + min(20, len(self.problems)))
        up = f"axis {self.axes[1] + 1}" if len(self.axes) == 2 else "the levels"
        out = [
            f'<svg xmlns="http://www.w3.org/2000/svg" width="1000" height="{height // 100}" viewBox="0 0 100000 {height}" font-family="sans-serif" font-size="1300">',
            '<rect width="100%" height="100%" fill="white"/>',
            '<rect x="10000" y="4000" width="80000" height="80000" fill="none" stroke="silver" stroke-width="50"/>',
            f'<text x="10000" y="2500">Rows: {dump.rows}; capacity: {dump.capacity}; to the right: axis {self.axes[0] + 1}; upwards: {up}</text>',
        ]
        places = [[('x="10000" y="85700"', 0), ('x="90000" y="85700" text-anchor="end"', 1)], [('x="9500" y="84000" text-anchor="end"', 0), ('x="9500" y="5000" text-anchor="end"', 1)]]
        for axis, pair in zip(self.axes, places):
            if self.span_of[axis]:
                out += [f"<text {where}>{self.span_of[axis][end]}</text>" for where, end in pair]
        for level in self.levels:
            hue = self.hue(level)
            out.append(f'<g stroke="currentColor" fill="currentColor" color="hsl({hue},70%,40%)" fill-opacity="{"0" if level else "0.15"}" stroke-width="{50 + 50 * min(level, 4)}">')
            for node in dump.nodes:
                if node.level == level:
                    out += [f"{self.box(level, cell)}<title>{'node' if level else 'row'} {cell.number}</title></rect>" for cell in node.cells]
            out.append("</g>")
        return "\n".join([*out, *self.legend(), *self.red(start), "</svg>", ""])

    def hue(self, level: int) -> int:
        """The hue of a level."""
        return 40 + (170 + 173 * level) % 280

    def legend(self) -> list[str]:
        """A line for each level."""
        heads = [(14000, "level"), (26000, "nodes"), (42000, "cells"), (56000, "mean fill"), (76000, "overlap of siblings")]
        columns = [x for x, _ in heads]
        spans = "".join(f'<tspan x="{x}">{word}</tspan>' for x, word in heads)
        out = [f'<text text-anchor="end" y="{LEGEND}">{spans}</text>']
        for level in range(self.top, -1, -1):
            nodes = [node for node in self.dump.nodes if node.level == level]
            cells = sum(len(node.cells) for node in nodes)
            area = sum(self.shared(cell, cell) for node in nodes for cell in node.cells)
            common = sum(self.shared(*pair) for node in nodes for pair in combinations(node.cells[: self.dump.capacity], 2))
            words = [level, len(nodes), cells, f"{percent(cells, len(nodes) * self.dump.capacity)} %", f"{percent(common, area)} %"]
            spans = "".join(f'<tspan x="{x}">{word}</tspan>' for x, word in zip(columns, words))
            out.append(f'<text text-anchor="end" fill="hsl({self.hue(level)},70%,30%)" y="{LEGEND + LINE * (1 + self.top - level)}">{spans}</text>')
        if self.left_out:
            out.append(f'<text x="10000" y="{LEGEND + LINE * (2 + self.top)}">More than 20000 boxes: the cells of the leaves are left out (--all draws them)</text>')
        return out

    def red(self, start: int) -> list[str]:
        """The problems: the boxes of which they speak, and the first of them in words."""
        if not self.problems:
            return []
        out = ['<g stroke="red" fill="red" fill-opacity="0.1" stroke-width="150">']
        for problem in self.problems:
            code, _, number, _, position = problem.split(" ")
            for node in self.dump.nodes:
                if node.number == int(number) and code != "C9":
                    cells = node.cells if position == "0" else node.cells[int(position) - 1 : int(position)]
                    out += [f"{self.box(node.level, cell)}<title>{problem}</title></rect>" for cell in cells]
        spans = "".join(f'<tspan x="10000" dy="1800">{problem}</tspan>' for problem in self.problems[:20])
        return [*out, "</g>", f'<text fill="red" x="10000" y="{start}">Problems: {len(self.problems)}{spans}</text>']


def main() -> None:
    """Draws the dump that the command line names."""
    parser = argparse.ArgumentParser()
    parser.add_argument("dump", type=Path)
    parser.add_argument("problems", type=Path, nargs="?")
    parser.add_argument("--axes")
    parser.add_argument("--levels", default="0-255")
    parser.add_argument("--all", action="store_true")
    asked = parser.parse_args()
    dump = Dump(asked.dump.read_text())
    axes = [int(axis) - 1 for axis in asked.axes.split(",")] if asked.axes else list(range(min(2, dump.axes)))
    ends = [int(level) for level in asked.levels.split("-")]
    problems = [line for line in asked.problems.read_text().splitlines() if line != "ok"] if asked.problems else []
    print(Picture(dump, axes, range(min(ends), max(ends) + 1), asked.all, problems).text(), end="")


if __name__ == "__main__":
    main()

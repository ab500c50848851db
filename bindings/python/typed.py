"""A program with each call, for `mypy --strict`: an answer has the type that is written, and an `ignore` hides an error."""

import array
import copy
import sqlite3
from typing import Any, Iterator, List, Optional, Tuple, Union

import juicedelta
from juicedelta import (
    BadValue,
    Change,
    Columns,
    Grid,
    Item,
    JuicedeltaError,
    Kind,
    Live,
    Many,
    MissingId,
    NoMemory,
    Pairs,
    Relation,
    RTree,
    Shell,
    StatementRefused,
    Value,
    WindowChange,
)
from juicedelta.dask import Plane


class Id:
    def __index__(self) -> int:
        return 3


def trees(either: bool) -> None:
    tree = RTree(dimension=2, capacity=51)
    tree.insert(1, (0, 0, 1, 1))
    tree.insert(Id(), [5, 5, 6, 6])
    tree.move(1, range(4))
    box: Tuple[int, ...] = tree.box(1)
    number: int = tree.count(box) + tree.count(box, relation="within") + len(tree) + tree.dimension
    relation: Relation = "holds"
    number += tree.count(box, relation)
    ids: Iterator[int] = tree.intersection(box)
    ids = tree.intersection(box, objects=False)
    ids = tree.contains(box)
    ids = tree.covering(box, False)
    ids = tree.nearest((0, 0))
    ids = tree.nearest((0, 0), 2, False)
    rows: Iterator[Item] = tree.intersection(box, True)
    rows = tree.intersection(box, objects=True)
    rows = tree.contains(box, True)
    rows = tree.covering(box, objects=True)
    rows = tree.nearest((0, 0), 2, True)
    rows = tree.nearest((0, 0), objects=True)
    both: Union[Iterator[int], Iterator[Item]] = tree.intersection(box, either)
    both = tree.contains(box, either)
    both = tree.covering(box, objects=either)
    both = tree.nearest((0, 0), 2, either)
    both = tree.nearest((0, 0), objects=either)
    item: Item = next(rows)
    there: bool = item.id in tree and item.bbox == box
    text: str = tree.dump()
    again: RTree = RTree.from_dump(text)
    all_ids: List[int] = list(again)
    tree.delete(1)
    tree.delete(Id(), (5, 5, 6, 6))
    tree.clear()
    tree.close()
    print(number, list(ids), list(both), there, all_ids)


def many_rows() -> None:
    ids, boxes = array.array("q", [1, 2]), [(0, 0, 1, 1), (5, 5, 6, 6)]
    tree: RTree = RTree.from_rows(ids, boxes, 2, 51, objects=["one", None])
    other: RTree = RTree.from_items([(1, boxes[0], "one"), (2, boxes[1])], dimension=2)
    tree.insert(3, boxes[1], "three")
    tree.insert(4, boxes[1], obj=4)
    tree.insert_many(range(5, 7), boxes, objects=[5, 6])
    columns: Columns = tree.columns()
    numbers: "array.array[int]" = columns.ids
    rows: Iterator[Item] = tree.rows(part=100)
    it: Any = next(rows).object or tree.object(3)
    box: Optional[Tuple[Any, ...]] = tree.bounds
    many: Many = tree.intersection_many(boxes, "within")
    many = tree.nearest_many([(0, 0)], 2)
    numbers += many.ids + many.starts + tree.count_many(memoryview(array.array("i", boxes[0])), relation="holds")
    pairs: Pairs = tree.join(other)
    left: "array.array[int]" = tree.join().left + pairs.right
    near: Iterator[int] = tree.within((0, 0), 5.5)
    near = tree.nearest((0, 0, 1, 1), 2)
    rows = tree.within((0, 0), 5, objects=True)
    data: bytes = tree.to_bytes()
    with RTree.from_bytes(data, 2) as read:
        text: str = repr(copy.copy(read))
    print(columns.boxes, it, box, left, list(near), list(rows), text)


def windows() -> None:
    live = Live(dimension=2, capacity=51)
    live.reserve(10, windows=10, changes=Id())
    told: List[WindowChange] = live.insert(1, (0, 0, 1, 1)) + live.watch(Id(), [0, 0, 9, 9]) + live.move(1, (5, 5, 6, 6))
    told += live.shift(3, (0, 0, 5, 5)) + live.changes() + live.delete(1)
    for window, id, kind in told:
        number: int = window + id
        word: Kind = kind
    seen: List[int] = live.rows(3) + list(live) + [number, live.count((0, 0, 9, 9)), len(live), told[0].window]
    views: List[Item] = live.windows()
    near: Iterator[Item] = live.nearest((0, 0), objects=True)
    pairs: Pairs = live.join(RTree())
    with Live(grid=Grid(10), interleaved=False) as floats:
        told = floats.watch(1, (0, 1.5, 0, 2.5)) + floats.unwatch(1)
    print(word, seen, list(near), pairs, told, 1 in live, live.bounds)


def floats() -> None:
    grid = Grid(10_000_000, (0, 0))
    whole: Tuple[int, ...] = grid.box((0, 0.5, 1, 1)) + grid.point((0.5, 0))
    back: Tuple[float, ...] = grid.floats(whole[:4]) + grid.origin + (grid.scale,)
    tree = RTree(grid=grid, interleaved=False)
    tree.insert(1, (0.5, 1.5, 2, 3))
    box: Tuple[float, ...] = tree.box(1)
    read: RTree = RTree.from_sqlite(sqlite3.connect(":memory:"), "t", 51, grid=grid) if not tree else tree
    read.to_sqlite(sqlite3.connect(":memory:"), "t", ["name"])
    print(back, box, list(tree.nearest((0.5, 0.5))), RTree.from_bytes(tree.to_bytes(), grid=grid, interleaved=False))


def shells() -> None:
    shell = Shell(capacity=51)
    lines: List[str] = shell.execute("CREATE VIRTUAL TABLE t USING rtree_i32(id, a, b, +c);")
    changes: List[Change] = shell.changes(".watch v FROM t\nINSERT INTO t VALUES (1, 2, 3, 'x')")
    view, sign, values = changes[0]
    words: str = view + sign + changes[0].view
    rows: List[Tuple[Value, ...]] = shell.rows("SELECT * FROM t")
    connection = sqlite3.connect(":memory:")
    number: int = shell.save_sqlite(connection, "t", ["c"]) + Shell().load_sqlite(connection, "t", reals_as_text=True)
    lines += shell.finish()
    shell.close()
    print(lines, words, values, rows, number)


def planes(client: Any) -> None:
    """Not called."""
    plane = Plane.from_partitions(client, [([1], [(0, 0, 1, 1)])], tiles=4, dimension=2, capacity=51)
    ids: List[int] = list(plane.intersection((0, 0, 1, 1))) + list(plane.nearest((0, 0), 3))
    number: int = plane.count((0, 0, 1, 1)) + len(plane) + plane.dimension
    many: Many = plane.intersection_many([(0, 0, 1, 1)])
    pairs: Pairs = plane.join()
    pairs = plane.join(plane)
    box: Optional[Tuple[int, ...]] = plane.bounds
    print(ids, number, many, pairs, box)


def errors(code: JuicedeltaError, refusal: StatementRefused) -> str:
    numbers: Tuple[int, int, int] = code.code, refusal.statement, refusal.number
    kinds: Tuple[KeyError, ValueError, MemoryError] = MissingId(7), BadValue(5, 3), NoMemory(9)
    place: Optional[int] = code.at
    return f"{numbers}{refusal.words}{juicedelta.__version__}{kinds}{place}"


def wrong(tree: RTree, shell: Shell) -> None:
    """Not called."""
    tree.insert(1.5, (0, 0, 1, 1))  # type: ignore[arg-type]
    tree.move(1, ("0", 0, 1, 1))  # type: ignore[arg-type]
    tree.count("0011")  # type: ignore[arg-type]
    tree.count((0, 0, 1, 1), "inside")  # type: ignore[arg-type]
    tree.search((0, 0, 1, 1))  # type: ignore[attr-defined]
    next(tree.intersection((0, 0, 1, 1))).bbox  # type: ignore[attr-defined]
    Live().watch(1, "0011")  # type: ignore[arg-type]
    Live().move(1, (0, 0, 1, 1))[0].kind == "gone"  # type: ignore[comparison-overlap]
    next(tree.nearest((0, 0), objects=True)) + 1  # type: ignore[operator]
    shell.rows(b"SELECT * FROM t;")  # type: ignore[arg-type]


if __name__ == "__main__":
    trees(True)
    many_rows()
    windows()
    floats()
    shells()
    print(errors(JuicedeltaError(7), StatementRefused(1, 5, "no such table")))

"""Tests of the package's calls for many rows, of grids, and of objects beside rows. NumPy's arrays are tried if NumPy is there."""

import array
import copy
import ctypes
import doctest
import importlib
import math
import pickle
import random
import re
import sys
from fractions import Fraction
from pathlib import Path

from test import RELATIONS, Whole, by_distance, joined, raised, refused, related, started  # This also finds the package.

from juicedelta import Grid, Item, RTree, Shell, _form, _owner


def touches(one, other):
    axes = len(one) // 2
    return all(one[k] <= other[k + axes] and other[k] <= one[k + axes] for k in range(axes))


def squared(one, other):
    """The squared distance of two boxes."""
    axes = len(one) // 2
    return sum(max(one[k] - other[k + axes], other[k] - one[k + axes], 0) ** 2 for k in range(axes))


def around(boxes):
    axes = len(boxes[0]) // 2
    return tuple([min(it[k] for it in boxes) for k in range(axes)] + [max(it[k] for it in boxes) for k in range(axes, 2 * axes)])


def parts(many):
    return [list(many.ids[begin:end]) for begin, end in zip(many.starts, many.starts[1:])]


def random_rows(dimension, rows, wide):
    ids = random.sample(range(-5 * rows, 5 * rows), rows)
    lows = [[random.randrange(-1000, 1000) for _ in range(dimension)] for _ in ids]
    return {id: tuple(low + [n + random.randrange(wide) for n in low]) for id, low in zip(ids, lows)}


def test_many(dimension):
    """Calls for many rows and windows beside loops over all rows."""
    plain = random_rows(dimension, 300, 90)
    ids, boxes = list(plain), list(plain.values())
    tree = RTree.from_rows(ids[:200], boxes[:200], dimension)
    tree.insert_many(array.array("q", ids[200:]), array.array("i", sum(boxes[200:], ())))
    assert len(tree) == 300 and dict(tree.rows()) == dict(tree.rows(7)) == plain and sorted(tree) == sorted(plain)
    columns = tree.columns()
    assert dict(zip(columns.ids, zip(*[iter(columns.boxes)] * (2 * dimension)))) == plain and tree.bounds == around(boxes)
    windows = list(random_rows(dimension, 40, 400).values())
    for relation in RELATIONS:
        found = [sorted(related(plain, relation, it)) for it in windows]
        assert list(map(sorted, parts(tree.intersection_many(windows, relation)))) == found
        assert list(tree.count_many(windows, relation)) == list(map(len, found))
    points = [it[:dimension] for it in windows]
    for most in (0, 1, 7, 1000):
        assert parts(tree.nearest_many(points, most)) == [by_distance(plain, point)[:most] for point in points]
    assert parts(tree.nearest_many([])) == parts(tree.intersection_many([])) == list(tree.count_many([])) == []
    other = random_rows(dimension, 200, 90)
    pairs = sorted(zip(*tree.join(RTree.from_items(other.items(), dimension))))
    assert pairs == sorted((a, b) for a, one in plain.items() for b, two in other.items() if touches(one, two))
    pairs = sorted(zip(*tree.join()))
    assert pairs == sorted((a, b) for a, one in plain.items() for b, two in plain.items() if a < b and touches(one, two))
    for read in (RTree.from_bytes(tree.to_bytes(), dimension), pickle.loads(pickle.dumps(tree)), copy.copy(tree), copy.deepcopy(tree)):
        assert dict(read.rows()) == plain and read.dump() == tree.dump()
    for point in points:
        far = {id: squared(point * 2, box) for id, box in plain.items()}
        for distance in (0, 55, 300.5, 10**30):
            near = [id for id in by_distance(plain, point) if far[id] <= math.ceil(distance) ** 2]
            assert list(tree.within(point, distance)) == [it.id for it in tree.within(point, distance, objects=True)] == near
    for box in windows:
        off = {id: squared(box, row) for id, row in plain.items()}
        assert list(tree.nearest(box, 5)) == sorted(plain, key=lambda id: (off[id], id))[:5]
    for wrong in (-1, math.nan, math.inf, "1"):
        raised(ValueError, "a distance", tree.within, points[0], wrong)
    assert RTree.from_rows([], []).join() == RTree().join(RTree()) == (array.array("q"), array.array("q"))


def test_buffers():
    """Lists as buffers of each kind, and as iterables; others are refused with a word on what they are."""
    rows = [(1, (0, 0, 1, 1)), (2, (5, 5, 6, 6))]
    boxes = [0, 0, 1, 1, 5, 5, 6, 6]
    matrix = memoryview(array.array("i", boxes)).cast("B").cast("i", (2, 4))
    every_second = memoryview(array.array("q", [1, 0, 2]))[::2]
    buffers = (array.array("b", [1, 2]), (ctypes.c_uint64 * 2)(1, 2), b"\1\2", every_second)
    for ids in ([1, 2], range(1, 3), iter((1, Whole(2))), *buffers):
        assert sorted(RTree.from_rows(ids, array.array("q", boxes)).rows()) == rows
    lists = ([[0, 0, 1, 1], range(5, 9)], ([*map(Whole, it)] for _, it in rows))
    for many in (matrix, array.array("h", boxes), (ctypes.c_int32 * 8)(*boxes), *lists):
        assert RTree.from_rows([1, 2], many).box(1) == (0, 0, 1, 1)
    read_only = memoryview(bytes(array.array("i", boxes))).cast("i")
    assert RTree.from_rows(array.array("q", [1, 2]), read_only).box(2) == (5, 5, 6, 6)
    raised(ValueError, "whole numbers of 32 bits, not a buffer of format 'd'", RTree.from_rows, [1], array.array("d", boxes[:4]))
    raised(ValueError, "whole numbers of 64 bits, not a buffer of format 'f'", RTree.from_rows, array.array("f", [1]), boxes)
    for length in (1, 200):
        raised(ValueError, "whole numbers of 64 bits", RTree.from_rows, array.array("Q", [2**63] * length), matrix)
        wide = RTree.from_rows(range(length), array.array("q", [-(2**31), 5, 2**31 - 1, 5] * length))
        assert wide.box(length - 1) == (-(2**31), 5, 2**31 - 1, 5)
        for wrong in ([2**31] * 4, [0, 0, 0, -(2**31) - 1]):
            raised(ValueError, "whole numbers of 32 bits", RTree.from_rows, range(length), array.array("q", wrong * length))
    raised(ValueError, "boxes have 6 numbers each", RTree.from_rows, [1, 2], matrix, 3)
    for wrong in ([(0, 0, 1), (1, 5, 5, 6, 6)], [1, 2, 3, 4], ["0011"], [(0, 0, 1, 1.5)], [(0, 0, 1, 2**31)], 5, None):
        raised(ValueError, "boxes", RTree.from_rows, [1, 2], wrong)
    for wrong in ([1.5], ["1"], [2**63], 5, [(1, 2)]):
        raised(ValueError, "ids", RTree.from_rows, wrong, boxes)
    try:
        import numpy
    except ImportError:
        return
    tree = RTree.from_rows(numpy.array([1, 2]), numpy.array(boxes, dtype=numpy.int32).reshape(2, 4))
    strided = numpy.arange(40, dtype=numpy.int64).reshape(5, 8)[:, ::2]
    assert tree.count_many(numpy.array([[0, 0, 9, 9]], dtype=numpy.int64))[0] == 2 and len(RTree.from_rows(numpy.arange(5), strided)) == 5
    ids = numpy.asarray(tree.columns().ids)
    assert ids.dtype == numpy.int64 and sorted(ids) == [1, 2] and numpy.asarray(tree.columns().boxes).reshape(2, 4).dtype == numpy.int32
    raised(ValueError, "not a buffer of format '>i'", RTree.from_rows, [1, 2], numpy.array(boxes, dtype=">i4"))
    raised(ValueError, "not a buffer of format 'd'", RTree.from_rows, [1, 2], numpy.array(boxes, dtype=float))
    places = RTree.from_rows([1, 2], numpy.array(boxes, dtype=numpy.float32).reshape(2, 4) / 8, grid=Grid(10))
    assert numpy.asarray(places.columns().boxes).dtype == float and places.bounds == (0, 0, 0.8, 0.8)


def test_grid():
    """The least box of whole numbers, by fractions; and trees of floats."""
    for scale, origin in ((1, 0), (10**7, 0), (100, (500000.25, -4649776.5)), (1 / 3, 7), (0.1, -1e9), (3.7e5, 1 / 7)):
        grid = Grid(scale, origin)
        starts = (origin, origin) if isinstance(origin, (int, float)) else origin

        def back(k, axis):
            return float(starts[axis]) + k / float(scale)

        given, whole = array.array("d"), []
        for _ in range(500):
            lows = [back(random.randrange(-(2**31) + 9, 2**31 - 9), axis) + random.choice([0, random.random() / scale]) for axis in (0, 1)]
            highs = [low + random.choice([0, random.random() * 5 / scale]) for low in lows]
            box = grid.box(lows + highs)
            for axis in (0, 1):
                assert back(box[axis], axis) <= lows[axis] < back(box[axis] + 1, axis)
                assert back(box[axis + 2] - 1, axis) < highs[axis] <= back(box[axis + 2], axis)
            assert grid.box(grid.floats(box)) == box and grid.floats(box)[:2] == grid.floats(box[:2])
            given.extend(lows + highs)
            whole.extend(box)
            point = grid.point(lows)
            assert all(abs(Fraction(lows[k]) - Fraction(back(point[k], k))) * Fraction(scale) <= Fraction(5001, 10000) for k in (0, 1))
        # A long column, which NumPy takes if it is loaded, has what single numbers have.
        form = _form.Form(2, grid)
        assert form.list_of_boxes(given).tolist() == whole and form.columns(array.array("i", whole)).tolist() == [
            n for k in range(0, len(whole), 4) for n in grid.floats(whole[k : k + 4])
        ]
        points = [n for k in range(0, len(given), 4) for n in grid.point(given[k : k + 2])]
        assert form.list_of_points([given[k : k + 2] for k in range(0, len(given), 4)]).tolist() == points
        for wrong in (math.nan, math.inf, -math.inf, 1e300):
            raised(ValueError, "lies outside of the grid", form.list_of_boxes, array.array("d", [*given, wrong, 0, wrong, 0]))
        raised(ValueError, "", form.list_of_boxes, array.array("d", [*given, back(2, 0), 0, back(1, 0), 0]))
    grid = Grid(1)
    assert grid.box((-(2**31), 2**31 - 1)) == (-(2**31), 2**31 - 1) and grid.box((-0.5, 0.5)) == (-1, 1)
    outside = ((-(2**31) - 0.5, 0), (0, 2**31 - 0.5), (-math.inf, 0), (0, math.inf), (1e300, 1e301))
    for wrong in ((math.nan, 0), (0, math.nan), (0.6, 0.4), (0, 1, 2), *outside):
        raised(ValueError, "", grid.box, wrong)
    for wrong in ((math.nan,), (1e300,), (2**31,), (-math.inf,)):
        raised(ValueError, "lies outside of the grid", grid.point, wrong)
    for wrong in ((0,), (-1,), (math.inf,), (math.nan,), (1, 2.0**50), (1, math.nan), (1, (0, math.inf))):
        raised(ValueError, "a grid's scale", Grid, *wrong)
    raised(ValueError, "one origin", lambda: RTree(3, grid=Grid(1, (0, 0))))
    assert Grid(2, 1) == Grid(2.0, 1.0) == pickle.loads(pickle.dumps(Grid(2, 1))) != Grid(2) and hash(Grid(2, 1)) == hash(Grid(2.0, 1.0))
    degrees = Grid(10_000_000)
    berlin, rome = (13.405, 52.52, 13.405, 52.52), (12.4963655, 41.9027835, 12.4963655, 41.9027835)
    tree = RTree.from_items([(1, berlin, "Berlin"), (2, rome, "Rome")], grid=degrees)
    assert tree.box(1) == berlin and [it.object for it in tree.nearest((13, 52), 2, objects=True)] == ["Berlin", "Rome"]
    assert tree.bounds == (12.4963655, 41.9027835, 13.405, 52.52) and list(tree.within((13.4, 52.5), 0.1)) == [1]
    assert list(tree.intersection((13, 50, 14, 55))) == [1] and list(tree.count_many([berlin, (0, 0, 1, 1)])) == [1, 0]
    assert parts(tree.nearest_many(array.array("d", (13, 52, 12, 41)))) == [[1], [2]] and sorted(tree.columns().boxes) == sorted(berlin + rome)
    assert pickle.loads(pickle.dumps(tree)).box(2) == rome and RTree.from_bytes(tree.to_bytes()).box(1)[0] == 134050000
    raised(ValueError, "two grids", tree.join, RTree())
    for call in (tree.intersection, lambda it: tree.insert(5, it), lambda it: tree.count_many([it])):
        for wrong in ((0, 0, math.nan, 1), (0, 0, 300, 1), (1, 0, 0, 1)):
            raised(ValueError, "", call, wrong)
    raised(ValueError, "coordinates are 4 numbers", tree.insert, 5, (0, 0, 1))
    assert len(tree) == 2


def test_objects():
    """Objects beside ids, and boxes one axis after another."""
    with RTree.from_items(((id, (id, 0, id, 5), f"row {id}" if id % 2 else None) for id in range(9)), 2, 5) as tree:
        tree.insert(10, (10, 0, 10, 5), obj=["ten"])
        tree.insert_many([11, 12], [(11, 0, 11, 5)] * 2, objects=["eleven", None])
        kept = {7: "row 7", 8: None, 10: ["ten"], 11: "eleven", 12: None}
        assert {it.id: it.object for it in tree.intersection((7, 0, 12, 0), objects=True)} == kept
        assert {it.id: it.object for it in tree.rows() if it.id > 6} == kept
        assert [it.object for it in tree.nearest((3, 0), 1, objects=True)] == ["row 3"]
        assert tree.object(10) == ["ten"] and tree.object(12) is None and Item(1, (0, 1)) == (1, (0, 1)) and Item(1, (0, 1)).object is None
        for other in (pickle.loads(pickle.dumps(tree)), copy.deepcopy(tree)):
            assert other.object(10) == ["ten"] and other.object(10) is not tree.object(10)
        assert copy.copy(tree).object(10) is tree.object(10) and repr(tree) == "<RTree of 2 axes with 12 rows>"
        item = pickle.loads(pickle.dumps(next(tree.nearest((3, 0), objects=True))))
        assert (item, item.object, repr(item)) == ((3, (3, 0, 3, 5)), "row 3", "Item(id=3, bbox=(3, 0, 3, 5))")
        raised(ValueError, "1 objects for 2 ids", tree.insert_many, [20, 21], [(0, 0, 1, 1)] * 2, ["one"])
        assert refused(tree.insert, 10, (0, 0, 1, 1), "other") == 6 and tree.object(10) == ["ten"]
        tree.delete(10)
        tree.insert(10, (0, 0, 1, 1))
        assert tree.object(10) is None
        tree.clear()
        tree.insert(7, (0, 0, 1, 1))
        assert tree.object(7) is None
    assert refused(tree.__len__) == 1 and repr(tree) == "<RTree, closed>"
    with Shell() as shell:
        pass
    assert refused(shell.execute, "") == 1
    pairs = RTree(3, interleaved=False)
    pairs.insert(1, (0, 1, 10, 11, 20, 21))
    assert pairs.box(1) == pairs.bounds == (0, 1, 10, 11, 20, 21) and list(pairs.intersection((1, 5, 5, 10, 0, 50))) == [1]
    assert pairs.count_many([(0, 0, 10, 10, 20, 20), (2, 3, 10, 11, 20, 21)]).tolist() == [1, 0]
    assert pairs.columns().boxes.tolist() == [0, 1, 10, 11, 20, 21] and list(pairs.nearest((1, 2, 3))) == [1]
    assert RTree.from_bytes(pairs.to_bytes(), 3).box(1) == (0, 10, 20, 1, 11, 21) and copy.copy(pairs).box(1) == pairs.box(1)
    pairs.delete(1, (0, 1, 10, 11, 20, 21))
    both = RTree(grid=Grid(2, (100, 200)), interleaved=False)
    both.insert_many([1], [(100.5, 101, 200, 200.1)])
    assert both.box(1) == (100.5, 101.0, 200.0, 200.5) == tuple(both.columns().boxes) and list(both.nearest((100, 200))) == [1]


def test_joins():
    """Two trees are joined each way while two threads write to them, and no thread waits for ever: both joins enter the trees
    in one order."""
    box = (0, 0, 1, 1)
    left, right = RTree.from_rows([1], [box]), RTree.from_rows([2], [box])
    entered, read = [], _owner.Guard.read
    _owner.Guard.read = lambda guard, *words: (entered.append(guard), read(guard, *words))[1]
    orders = []
    for one, other in ((left, right), (right, left)):
        one.join(other)
        orders.append(entered[-2:])
    _owner.Guard.read = read
    assert orders[0] == orders[1] and set(orders[0]) == {left._guard, right._guard}

    def joins(one, other, pair):
        for _ in range(500):
            assert pair in set(zip(*one.join(other)))

    def writes(tree, id):
        for _ in range(500):
            tree.insert(id, box)
            tree.delete(id)

    interval = sys.getswitchinterval()
    sys.setswitchinterval(1e-5)
    joined(*started(
        lambda: joins(left, right, (1, 2)), lambda: joins(right, left, (2, 1)), lambda: writes(left, 3), lambda: writes(right, 3)
    ))
    sys.setswitchinterval(interval)


def test_page():
    """The package's page has examples that hold, and names each call of rtree's Index and shapely's STRtree, as far as these are
    installed."""
    page = Path(__file__).parent / "README.md"
    failed, tried = doctest.testfile(str(page), module_relative=False)
    assert failed == 0 < tried
    words = set(re.findall(r"\w+", page.read_text()))
    for module, name in (("rtree.index", "Index"), ("shapely.strtree", "STRtree")):
        try:
            calls = dir(getattr(importlib.import_module(module), name))
        except ImportError:
            continue
        assert not [it for it in calls if not it.startswith("_") and not {it, re.sub("^[gs]et_", "", it)} & words]


if __name__ == "__main__":
    random.seed(1)
    for dimension in (1, 2, 3):
        test_many(dimension)
    for test in (test_buffers, test_grid, test_objects, test_joins, test_page):
        test()
    print("bindings/python: passed with many rows")

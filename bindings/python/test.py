"""Tests of the package: its doctests, random calls against a dict, scripts, and each error once.

With the word `memory` it tries one call that finds no memory: faults/refuse.c refuses the allocations between the two marks.
"""
import array
import copy
import ctypes
import doctest
import faulthandler
import multiprocessing
import os
import pickle
import random
import signal
import sys
import threading
import time
from concurrent.futures import ProcessPoolExecutor

sys.path.insert(0, os.path.dirname(os.path.abspath(__file__)))
import juicedelta  # noqa: E402
from juicedelta import (  # noqa: E402
    BadValue, Change, Grid, Item, JuicedeltaError, Live, MissingId, NoMemory, RTree, Shell, StatementRefused, WindowChange, _calls, _live,
    _many, _owner, _reads, _trees,
)


def refused(call, *words):
    """The code that a call is refused with."""
    try:
        call(*words)
    except JuicedeltaError as error:
        return error.code
    return 0


def raised(kind, words, call, *arguments):
    """The error of that kind, with those words in its own, that a call raises."""
    try:
        answer = call(*arguments)
    except kind as error:
        assert words in str(error), f"{error} lacks {words}"
        return error
    raise SystemExit(f"{call}{arguments} answers {answer!r}")


class Whole:
    """A whole number of another kind, as NumPy's are."""

    def __init__(self, number):
        self.number = number

    def __index__(self):
        return self.number


RELATIONS = ("touches", "within", "holds")


def related(plain, relation, box):
    """The rows that have that relation to the box, by its definition on each axis."""
    axes = range(len(box) // 2)

    def is_inside(inner, outer):
        is_empty = any(inner[k] > inner[k + len(axes)] for k in axes)
        return is_empty or all(outer[k] <= inner[k] and inner[k + len(axes)] <= outer[k + len(axes)] for k in axes)

    def touches(row):
        return all(max(row[k], box[k]) <= min(row[k + len(axes)], box[k + len(axes)]) for k in axes)

    holds = {"touches": touches, "within": lambda row: is_inside(row, box), "holds": lambda row: is_inside(box, row)}[relation]
    return {id: row for id, row in plain.items() if holds(row)}


def by_distance(plain, point):
    def distance(row):
        low, high = row[1][: len(point)], row[1][len(point) :]
        return sum(max(a - x, x - b, 0) ** 2 for a, x, b in zip(low, point, high)), row[0]

    return [id for id, _ in sorted(plain.items(), key=distance)]


def test_random(dimension, capacity, turns):
    tree, plain = RTree(dimension, capacity), {}
    for turn in range(turns):
        id = random.randrange(-300, 300)
        low = [random.randrange(-1000, 1000) for _ in range(dimension)]
        box = tuple(low + [n + random.randrange(80) for n in low])
        kind = random.randrange(7)
        if kind < 2:
            assert refused(tree.insert, id, box) == (6 if id in plain else 0)
            plain.setdefault(id, box)
        elif kind == 2:
            assert refused(tree.delete, id, plain.get(id, box) if turn % 2 else None) == (0 if id in plain else 7)
            plain.pop(id, None)
        elif kind == 6:
            assert refused(tree.move, id, box) == (0 if id in plain else 7)
            plain.update({id: box} if id in plain else {})
        elif kind == 3:
            if turn % 2:
                box = tuple(low + [n + random.randrange(-20, 300) for n in low])
            for relation, search in zip(RELATIONS, (tree.intersection, tree.contains, tree.covering)):
                found = related(plain, relation, box)
                assert sorted(search(box)) == sorted(found) and tree.count(box, relation) == len(found)
                assert {row.id: row.bbox for row in search(box, objects=True)} == found
            assert tree.count(box) == tree.count(box, relation="touches")
        elif kind == 4:
            ids = by_distance(plain, low)[:5]
            assert list(tree.nearest(low, 5)) == ids
            assert list(tree.nearest(low, 5, objects=True)) == [Item(id, plain[id]) for id in ids]
        else:
            assert len(tree) == len(plain) and (id in tree) == (id in plain)
    assert sorted(tree) == sorted(plain) and all(tree.box(id) == box for id, box in plain.items())
    read = RTree.from_dump(tree.dump())
    assert read.dimension == dimension and {row.id: row.bbox for row in read.intersection([-2000] * dimension + [2000] * dimension, objects=True)} == plain
    tree.clear()
    assert len(tree) == 0 and 3 not in tree and list(tree.nearest(low)) == []


def pairs(rows, windows):
    """Each window with each row that touches it."""
    return {(window, id) for window, view in windows.items() for id in related(rows, "touches", view)}


def told(before, rows, windows):
    """What an edit tells, by the definition: which pairs came and left, and which stayed though the row has another box."""
    old, new = pairs(*before), pairs(rows, windows)
    kinds = {pair: "left" if pair not in new else "came" if pair not in old else "moved" for pair in old | new}
    return [WindowChange(*pair, kinds[pair]) for pair in sorted(kinds) if kinds[pair] != "moved" or before[0].get(pair[1]) != rows[pair[1]]]


def follow(copies, changes):
    """A copy of what each window sees follows the changes alone."""
    for window, id, kind in changes:
        assert (id in copies.setdefault(window, set())) == (kind != "came")
        copies[window] ^= {id} if kind != "moved" else set()


def test_live(dimension, capacity, turns):
    """Random edits beside dicts, and reads of the rows."""
    live, rows, windows, copies = Live(dimension, capacity), {}, {}, {}
    live.reserve(40, 12, changes=100)
    for turn in range(turns):
        id, window, before = random.randrange(-20, 20), random.randrange(12), (dict(rows), dict(windows))
        low = [random.randrange(300) for _ in range(dimension)]
        box, view = tuple(low + [n + random.randrange(80) for n in low]), tuple(low + [n + random.randrange(250) for n in low])
        kind, call = random.randrange(8), None
        if kind < 3:
            box, call = random.choice([box, rows.get(id, box)]), live.move if id in rows else live.insert
            changes, rows[id] = call(id, box), box
        elif kind == 3 and id in rows:
            changes, call = live.delete(id), rows.pop(id)
        elif kind == 7 and window in windows:
            changes, call = live.unwatch(window), windows.pop(window)
        elif kind in (4, 5, 6):
            call = live.shift if window in windows else live.watch
            changes, windows[window] = call(window, view), view
        if call is not None:
            assert changes == told(before, rows, windows) == live.changes()
            follow(copies, changes)
        if turn % 50 == 0:
            assert all(sorted(copies.get(it, ())) == live.rows(it) == sorted(live.intersection(windows[it])) for it in windows)
            assert {it.id: it.bbox for it in live.windows()} == windows and sorted(live) == sorted(rows) and len(live) == len(rows)
            assert list(live.nearest(low, 5)) == by_distance(rows, low)[:5] and live.count(view) == len(related(rows, "touches", view))
            assert all(live.box(it) == rows[it] and it in live for it in rows) and 99 not in live and live.bounds == RTree.from_dump(live.dump()).bounds
            assert [list(it) for it in live.join(RTree.from_bytes(live.to_bytes(), dimension))] == [list(it) for it in live.join(live)]


def test_live_codes():
    """Each code once; the package has no way to 2, 3, 8, 14 and 15, so they are tried below it."""
    live, closed, tree, box, bad, total = Live(), Live(), RTree(), (0, 0, 1, 1), (0, 2, 1, 1), ctypes.c_uint64()
    to, packed, none = ctypes.byref(total), live._form.packed(box), array.array("q", [0]).buffer_info()[0]
    assert live.insert(1, box) == [] and live.watch(5, box) == [(5, 1, "came")] == [WindowChange(5, 1, "came")]
    closed.close()
    for call in (closed.insert, closed.move, closed.watch, closed.shift):
        assert refused(call, 1, box) == 1
    for call in (closed.delete, closed.unwatch, closed.rows, lambda _: closed.windows(), lambda _: closed.changes(), lambda _: closed.reserve()):
        assert refused(call, 1) == 1
    assert _calls.live_remove(tree._at, 1, to) == _calls.tree_remove(live._at, 1) == _calls.tree_insert(live._at, 1, packed, 4) == 2
    assert _calls.live_open(live._at, 2, 51, 1, 2) == 3 and _calls.live_open(ctypes.byref(_calls.Handle()), 4, 51, 1, 2) == 15
    assert refused(Live, 2, 52) == 4 and [refused(it, 1, bad) for it in (live.insert, live.move, live.watch, live.shift)] == [5] * 4
    assert refused(live.insert, 1, box) == refused(live.watch, 5, box) == 6
    assert refused(live.move, 5, box) == refused(live.shift, 1, box) == refused(live.delete, 5) == 7
    assert refused(live.unwatch, 1) == refused(live.rows, 1) == 7
    raised(KeyError, "no row or window has that id", live.rows, 1)
    assert _calls.live_changes(live._at, none, 0, none, 0, none, 0, to) == 8 and total.value == 1
    assert refused(live.reserve, 2**70) == refused(live.reserve, 0, 2**64 - 1) == refused(live.reserve, 0, 0, 2**64 - 1) == 9
    assert _calls.live_changes(live._at, none, 1, none, 0, none, 0, to) == _calls.live_insert(live._at, 2, packed, 2, to) == 14
    for wrong in (1.5, "1", None, 2**63):
        for call in (live.delete, live.unwatch, live.rows):
            raised(ValueError, "ids are whole numbers", call, wrong)
        raised(ValueError, "ids are whole numbers", live.watch, wrong, box)
    raised(ValueError, "whole numbers of 32 bits", live.shift, 5, (0, 0, 1))
    raised(ValueError, "rows is a whole number", live.reserve, 1.5)
    raised(TypeError, "Live objects can't be copied or pickled", copy.copy, live)
    assert live.changes() == [(5, 1, "came")] and live.rows(5) == [1] and repr(live) == "<Live of 2 axes with 1 rows>"
    live.__init__(1)
    assert len(live) == 0 and live.windows() == [] and live.watch(1, (0, 9)) == []
    degrees = Live(1, grid=Grid(10), interleaved=False)
    assert degrees.watch(1, (0.25, 1)) == [] and degrees.insert(7, (1, 2)) == [(1, 7, "came")] and degrees.windows() == [(1, (0.2, 1.0))]


def test_live_threads():
    """Threads edit by turns: each is answered what its own edit told. Others read meanwhile, and an edit within an edit is an error."""
    live, is_over, turns = Live(1, 8), threading.Event(), 800

    def edits(thread):
        # Each has a window and rows of its own, where no other has any.
        rolls, place, copy = random.Random(thread), 10000 * thread, set()
        live.watch(thread, (place, place + 500))
        for turn in range(turns):
            id, at = 100 * thread + rolls.randrange(40), place + rolls.randrange(1000)
            changes = live.move(id, (at, at)) if id in live else live.insert(id, (at, at))
            is_in = at <= place + 500
            assert changes in ([(thread, id, kind)] for kind in ("moved", "came", "left")) if changes else not is_in or id in copy
            copy = copy | {id} if is_in else copy - {id}
        assert live.rows(thread) == sorted(copy)

    def reads():
        while not is_over.is_set():
            seen = {it.id: it.bbox for it in live.windows()}
            for window in seen:
                assert all(it // 100 == window for it in live.rows(window)) and len(live.changes()) <= 40
            assert live.count((0, 10**6)) <= len(live) <= 120

    interval = sys.getswitchinterval()
    sys.setswitchinterval(1e-5)
    readers = started(reads, reads)
    joined(*started(*[lambda it=it: edits(it) for it in (1, 2, 3)]))
    is_over.set()
    joined(*readers)
    sys.setswitchinterval(interval)

    def interrupted(*words):
        assert live.rows(2) == sorted(live.rows(2))
        live.delete(100)

    call, _live.live_changes = _live.live_changes, interrupted
    raised(RuntimeError, "is interrupted by another", live.unwatch, 1)
    _live.live_changes = call
    assert 1 not in {it.id for it in live.windows()} and live.changes()[0][::2] == (1, "left") and live.watch(1, (10000, 10500)) != []


def test_codes():
    """Each code, but 11 and 9; the package has no way to 2, 3, 8, 12, 14, 15 and 16, so they are tried below it."""
    tree, closed, shell, total = RTree(), RTree(), Shell(), ctypes.c_uint64()
    box = tree._form.packed((0, 0, 1, 1))
    ids, handle, to = array.array("q", [0]), ctypes.byref(_calls.Handle()), ctypes.byref(total)
    tree.insert(1, (0, 0, 1, 1))
    closed.close()
    for call in (closed.insert, closed.move):
        assert refused(call, 1, (0, 0, 1, 1)) == 1
    assert refused(closed.__len__) == refused(closed.dump) == refused(closed.intersection, (0, 0, 1, 1)) == 1
    assert _calls.tree_remove(shell._at, 1) == 2
    assert _calls.tree_open(tree._at, 2, 51, 1, 2) == 3
    assert refused(tree.insert, 2, (0, 2, 1, 1)) == refused(tree.move, 1, (0, 2, 1, 1)) == 5
    assert refused(tree.insert, 1, (0, 0, 1, 1)) == 6
    raised(KeyError, "no row or window has that id", tree.delete, 2)
    raised(KeyError, "no row or window has that id", tree.object, 2)
    raised(ValueError, "the id is taken", tree.insert, 1, (0, 0, 1, 1))
    assert issubclass(MissingId, KeyError) and issubclass(NoMemory, MemoryError) and issubclass(BadValue, ValueError)
    assert refused(tree.delete, 2) == refused(tree.delete, 2, (0, 0, 1, 1)) == refused(tree.move, 2, (0, 0, 1, 1)) == 7
    assert _calls.tree_search(tree._at, 0, box, 4, ids.buffer_info()[0], 0, to) == 8
    assert refused(RTree.from_dump, "rtree 2 5 1 0\n") == 13
    assert _calls.tree_insert(tree._at, 2, box, 3) == _calls.tree_count(tree._at, 0, box, 2, to) == 14
    assert _calls.tree_open(handle, 4, 51, 1, 2) == _calls.tree_open_dump(handle, 0, b"", 0, 1, 2) == 15
    assert _calls.tree_count(tree._at, 3, box, 4, to) == 16
    words = [str(JuicedeltaError(code)) for code in range(1, 19)]
    assert words[2] == "an object is held already" and words[11] == "the script is longer than 2^63 bytes"
    assert len(set(words)) == 18 and "unknown code" not in words and str(JuicedeltaError(19)) == "unknown code"
    # Each call for many rows, and where the refused row is.
    one, two, closed, empty = [(0, 0, 1, 1)], [(0, 0, 1, 1), (0, 2, 1, 1)], RTree(), RTree()
    closed.close()
    for call in (closed.join, closed.columns, closed.to_bytes, lambda: closed.bounds, lambda: closed.insert_many([1], one)):
        assert refused(call) == 1
    assert _calls.tree_bounds(shell._at, ids.buffer_info()[0], 1) == 2
    assert refused(RTree.from_rows, [], [], 2, 52) == 4
    for call in (lambda *rows: RTree.from_rows(*rows), RTree().insert_many):
        assert raised(BadValue, "min is above max, at place 1", call, [5, 6], two).at == 1
        assert raised(BadValue, "taken, at place 2", call, [5, 6, 5], one * 3).at == 2
        assert refused(call, [5, 6], one) == 14
    assert raised(BadValue, "", tree.insert_many, [9, 1], one * 2).at == 1 and 9 not in tree
    assert refused(tree.nearest, (0, 2, 1, 1)) == 5 and refused(tree.intersection_many, array.array("i", [1])) == 14
    assert refused(RTree(3).join, tree) == 15 and empty.bounds is None and _calls.tree_bounds(empty._at, ids.buffer_info()[0], 4) == 17
    assert refused(RTree.from_bytes, b"none") == refused(RTree.from_bytes, tree.to_bytes(), 3) == 18
    assert _calls.tree_search_many(tree._at, 0, ids.buffer_info()[0], 0, to, 1, ids.buffer_info()[0], 0, to) == 14
    raised(ValueError, "not (0, 0, 1, 2)", tree.delete, 1, (0, 0, 1, 2))
    for relation in ("inside", "", None, 1):
        raised(ValueError, "'touches', 'within' or 'holds'", tree.count, (0, 0, 1, 1), relation)
    assert len(tree) == 1 and tree.box(1) == (0, 0, 1, 1)
    tree.delete(1, [0, 0, 1, 1])
    assert len(tree) == 0


def test_workers():
    """Threads that share windows or points find what one finds, each in its place."""
    for dimension in (1, 2, 3):
        ids, rows = range(3000), [tuple((7919 * id + 31 * axis) % 5003 + end for end in (0, 9) for axis in range(dimension)) for id in range(3000)]
        tree, windows, points = RTree.from_rows(ids, rows, dimension), rows + rows[:999], [row[:dimension] for row in rows]
        found, counts, near = tree.intersection_many(windows), tree.count_many(windows, "within"), tree.nearest_many(points, 2)
        for workers in (1, 2, 3, 4, 50, -1):
            assert tree.intersection_many(windows, workers=workers) == found
            assert tree.count_many(windows, "within", workers) == counts and tree.nearest_many(points, 2, workers) == near
        assert [len(found.ids), len(counts), len(near.starts)] == [sum(tree.count_many(windows)), 3999, 3001]
        for call in (tree.intersection_many, tree.count_many, tree.nearest_many):
            for workers in (0, -2, 1.0, True, None):
                raised(ValueError, "workers is", lambda: call([], workers=workers))
            assert len(call([], workers=4)) == len(call([]))
        odd = array.array("i", [0] * (2 * dimension * 4000 + 1))
        assert refused(lambda: tree.intersection_many(odd, workers=4)) == 14
    # One window in 64 finds all rows, and each other window finds one.
    tree = RTree.from_rows(range(1000), [(id, id) for id in range(1000)], 1)
    for place in range(3):
        windows = [(0, 999) if k % 64 == place else (k % 1000, k % 1000) for k in range(20000)]
        for workers in (1, 4):
            ids, starts = tree.intersection_many(windows, workers=workers)
            assert len(starts) == 20001 and starts[20000] == len(ids)
            for (low, high), begin, end in zip(windows, starts, starts[1:]):
                assert sorted(ids[begin:end]) == list(range(low, high + 1))
            assert list(tree.count_many(windows, workers=workers)) == [high + 1 - low for low, high in windows]


def test_numbers():
    """Ids and coordinates are whole numbers in range, of Python, of NumPy, or of another class."""
    tree, box = RTree(), (0, 0, 1, 1)
    for coordinates in ((0, 0, 1), (0, 0, 1, 2**31), (0, 0.5, 1, 1), "0011"):
        for call in (tree.insert, tree.move, tree.delete):
            raised(ValueError, "whole numbers of 32 bits", call, 1, coordinates)
        for call in (tree.intersection, tree.contains, tree.covering, tree.count):
            raised(ValueError, "whole numbers of 32 bits", call, coordinates)
    for id in (1.5, 1.0, "1", None, 2**63, -(2**63) - 1):
        for call in (tree.insert, tree.move, tree.delete):
            raised(ValueError, "ids are whole numbers", call, id, box)
        raised(ValueError, "ids are whole numbers", tree.box, id)
        raised(ValueError, "ids are whole numbers", tree.__contains__, id)
    raised(ValueError, "whole number", tree.nearest, (0, 0), 1.5)
    assert len(tree) == 0
    kinds = [Whole]
    try:
        import numpy

        kinds += [numpy.int64, numpy.int32]
        raised(ValueError, "whole numbers", tree.insert, numpy.float64(1), box)
        assert list(tree.intersection(numpy.array(box))) == list(tree.nearest(numpy.array(box[:2]))) == []
    except ImportError:
        pass
    for kind in kinds:
        moved = [kind(n) for n in (0, 0, 2, 2)]
        tree.insert(kind(7), [kind(n) for n in box])
        tree.move(kind(7), moved)
        assert kind(7) in tree and tree.box(kind(7)) == (0, 0, 2, 2) and list(tree.nearest([kind(0)] * 2, kind(1))) == [7]
        tree.delete(kind(7), moved)
        assert len(RTree(kind(1), kind(5))) == 0


def test_options():
    for options in ((True,), (2.0,), ("2",), (2, True), (2, 51.0), (2, "51"), (2, None)):
        raised(ValueError, "is a whole number", RTree, *options)
    for dimension in (0, 4):
        raised(ValueError, "dimension is 1, 2 or 3", RTree, dimension)
    for capacity in (True, 51.0, "51"):
        raised(ValueError, "capacity is a whole number", Shell, capacity)
    for capacity in (4, 52, -1, 2**32 + 51, 51 - 2**32):
        assert refused(RTree, 2, capacity) == refused(Shell, capacity) == 4


def test_owners():
    """No object shares a handle: a tree is copied and pickled by its bytes, a shell is not, and one that is made anew closes the old."""
    tree, shell = RTree(), Shell()
    tree.insert(1, (0, 0, 1, 1))
    shell.execute("CREATE VIRTUAL TABLE t USING rtree_i32(id, a, b); INSERT INTO t VALUES (1, 2, 3); SELECT")
    ways = [copy.copy, copy.deepcopy] + [lambda it, p=p: pickle.loads(pickle.dumps(it, p)) for p in range(pickle.HIGHEST_PROTOCOL + 1)]
    for way in ways:
        other = way(tree)
        other.insert(2, (5, 5, 6, 6))
        assert sorted(other.rows()) == [(1, (0, 0, 1, 1)), (2, (5, 5, 6, 6))] and list(tree) == [1]
        raised(TypeError, "Shell objects can't be copied or pickled", way, shell)
    assert refused(tree.__init__, 2, 52) == 4 and list(tree) == [1] and shell.execute(" * FROM t;") == ["1|2|3"]
    close, answers = _calls.close, []

    def closes(at):
        answers.append(close(at))
        return answers[-1]

    _owner.close = _reads.close = closes
    tree.__init__(3)
    shell.__init__()
    assert answers == [0, 0] and len(tree) == 0 and refused(tree.insert, 1, (0, 0, 0, 1, 1, 1)) == 0
    assert shell.execute("SELECT * FROM t; SELECT") == ["refused 1 5: no such table"]
    shell.__init__()
    assert shell.rows("") == []
    _owner.close = _reads.close = close


def fails(code):
    if code:
        raise MissingId(code) if code == 7 else BadValue(code, 3)
    Shell().rows("CREATE VIRTUAL TABLE t USING rtree_i32(id, a, b); SELECT c FROM t;")


def test_errors():
    """Errors keep their numbers and words where they are copied, and on their way from another process."""

    def is_whole(error):
        if isinstance(error, MissingId):
            return (error.code, error.at, str(error)) == (7, None, "no row or window has that id")
        if isinstance(error, BadValue):
            return (error.code, error.at, str(error)) == (6, 3, "the id is taken, at place 3")
        return (error.statement, error.number, error.words, str(error)) == (2, 8, "no such column", "no such column")

    with ProcessPoolExecutor(1) as executor, multiprocessing.Pool(1) as pool:
        for code, kind in ((7, MissingId), (6, BadValue), (0, StatementRefused)):
            error = raised(kind, "", fails, code)
            pickled = [pickle.loads(pickle.dumps(error, protocol)) for protocol in range(pickle.HIGHEST_PROTOCOL + 1)]
            for it in [error, copy.copy(error), copy.deepcopy(error), *pickled]:
                assert type(it) is kind and is_whole(it)
            assert is_whole(raised(kind, "", executor.submit(fails, code).result, 60))
            assert is_whole(raised(kind, "", pool.apply_async(fails, [code]).get, 60))


def started(*calls):
    """A thread for each call, and a list of the errors that they raise."""
    errors = []

    def run(call):
        try:
            call()
        except BaseException as error:
            errors.append(error)

    threads = [threading.Thread(target=run, args=[call], daemon=True) for call in calls]
    for thread in threads:
        thread.start()
    return threads, errors


def joined(threads, errors):
    for thread in threads:
        thread.join(120)
        assert not thread.is_alive()
    if errors:
        raise errors[0]


def test_order():
    """Calls that read are made at once, one that writes waits for them, and a later read for that. One that raises holds up none."""
    box = (0, 0, 1, 1)
    reads = {
        "tree_search": lambda tree: tree.intersection(box), "tree_search_rows": lambda tree: tree.contains(box, True),
        "tree_count": lambda tree: tree.count(box), "tree_get": lambda tree: tree.box(1), "tree_len": len,
        "tree_nearest": lambda tree: tree.nearest((0, 0)), "tree_dump": lambda tree: tree.dump(),
        "tree_within": lambda tree: tree.within((0, 0), 1), "tree_rows": lambda tree: tree.columns(), "tree_bounds": lambda tree: tree.bounds,
        "tree_join": lambda tree: tree.join(tree), "tree_search_many": lambda tree: tree.intersection_many([box]),
        "tree_count_many": lambda tree: tree.count_many([box]), "tree_to_bytes": lambda tree: tree.to_bytes(),
    }
    writes = {
        "tree_insert": lambda tree: tree.insert(2, box), "tree_move": lambda tree: tree.move(1, box), "close": lambda tree: tree.close(),
        "tree_insert_rows": lambda tree: tree.insert_many([2], [box]), "tree_remove": lambda tree: tree.delete(1),
        "tree_clear": lambda tree: tree.clear(),
    }
    live_reads = {"live_rows": lambda live: live.rows(1), "live_windows": lambda live: live.windows()}
    live_writes = {
        "live_insert": lambda live: live.insert(2, box), "live_move": lambda live: live.move(1, (0, 0, 2, 2)),
        "live_remove": lambda live: live.delete(1), "live_watch": lambda live: live.watch(2, box),
        "live_shift": lambda live: live.shift(1, (0, 0, 2, 2)), "live_unwatch": lambda live: live.unwatch(2),
        "live_reserve": lambda live: live.reserve(), "close": lambda live: live.close(),
    }
    calls = {name: getattr(_calls, name) for name in (*reads, *writes, *live_reads, *live_writes)}

    def put(name, call):
        for module in (_trees, _many, _reads, _live):
            if hasattr(module, name):
                setattr(module, name, call)

    def made(kind):
        tree = kind()
        tree.insert(1, box)
        if kind is Live:
            tree.watch(1, box)
        return tree

    for name in (*reads, *live_reads):
        assert not calls[name]._flags_ & ctypes._FUNCFLAG_PYTHONAPI

    def pair(read, write, kind=RTree):
        reading, writing = {**reads, **live_reads}[read], {**writes, **live_writes}[write]
        tree, inside, go, said = made(kind), threading.Barrier(3), threading.Event(), []

        def reads_slowly(*words):
            inside.wait(60)
            go.wait(60)
            said.append("read")
            return calls[read](*words)

        def writes_now(*words):
            said.append("write")
            return calls[write](*words)

        put(read, reads_slowly)
        readers = started(lambda: reading(tree), lambda: reading(tree))
        inside.wait(60)
        put(read, calls[read])
        put(write, writes_now)
        writer = started(lambda: refused(writing, tree))
        for _ in range(5000):
            if not tree._guard.writes:
                time.sleep(0.001)
        late = started(lambda: said.append(refused(reading, tree)))
        time.sleep(0.02)
        assert said == []
        go.set()
        for it in (readers, writer, late):
            joined(*it)
        assert said == ["read", "read", "write", 1 if write == "close" else 7 if (read, write) == ("tree_get", "tree_remove") else 0]
        put(write, calls[write])
        assert not tree._guard.reads and not tree._guard.writes

    for read in reads:
        pair(read, "tree_insert")
    for write in writes:
        pair("tree_search", write)
    for write in live_writes:
        pair("live_rows", write, Live)
    for read in ("live_windows", "tree_search"):
        pair(read, "live_move", Live)
    tree, live = made(RTree), made(Live)
    for name, call in {**reads, **writes, **live_reads, **live_writes}.items():
        if name != "close":
            put(name, lambda *words: 1 // 0)
            raised(ZeroDivisionError, "", call, live if name.startswith("live") else tree)
            put(name, calls[name])
            assert len(live.move(1, (0, 0, 2, 2)) + live.move(1, box)) == 2
            joined(*started(lambda: tree.move(1, (0, 0, 2, 2)), lambda: tree.move(1, box)))
            assert len(tree) == 1 and list(tree.intersection((2, 2, 2, 2))) in ([], [1])


def test_threads():
    """Four threads read a tree while a fifth writes to it, beside plain lists.

    The rows in the west stay as they are, so what is found there is known. Those in the east move about and always have one place, and
    those in the north come and go.
    """

    def boxes(ids, west, south):
        corners = {id: (west + random.randrange(900), south + random.randrange(900)) for id in ids}
        return {id: (x, y, x + random.randrange(90), y + random.randrange(90)) for id, (x, y) in corners.items()}

    tree, west, east, north = RTree(2, 8), boxes(range(300), -2000, 0), boxes(range(300, 600), 1000, 0), {}
    is_over, turns = threading.Event(), [0] * 4
    for id, box in {**west, **east}.items():
        tree.insert(id, box)
    asked = []
    for box in boxes(range(60), -2000, 0).values():
        found = [related(west, relation, box) for relation in RELATIONS]
        asked.append((box, found, by_distance(west, (-9000, box[1]))[:3]))

    def reads(thread):
        rolls = random.Random(thread)
        while not is_over.is_set() or turns[thread] < 50:
            (box, found, near), id = rolls.choice(asked), rolls.randrange(300)
            for relation, search, rows in zip(RELATIONS, (tree.intersection, tree.contains, tree.covering), found):
                assert sorted(search(box)) == sorted(rows) and tree.count(box, relation) == len(rows)
            assert {row.id: row.bbox for row in tree.intersection(box, True)} == found[0]
            assert list(tree.nearest((-9000, box[1]), 3)) == near and tree.box(id) == west[id] and id in tree
            assert tree.count((1000, 0, 3000, 3000)) == 300 and sorted(tree.contains((1000, 0, 3000, 3000))) == sorted(east)
            assert 600 <= len(tree) <= 700
            if turns[thread] % 20 == 0:
                copied = RTree.from_dump(tree.dump())
                assert {row.id: row.bbox for row in copied.contains((-2000, 0, -900, 1000), True)} == west
                assert 600 <= len(copied) <= 700 and sorted(copied.contains((1000, 0, 3000, 3000))) == sorted(east)
            turns[thread] += 1

    def writes():
        try:
            for turn in range(4000):
                id = random.randrange(600, 700)
                if turn % 2:
                    (row, box), = boxes([random.choice(list(east))], 1000, 0).items()
                    tree.move(row, box)
                    east[row] = box
                elif id in north:
                    tree.delete(id, north.pop(id))
                else:
                    north.update(boxes([id], 0, 5000))
                    tree.insert(id, north[id])
        finally:
            is_over.set()

    interval = sys.getswitchinterval()
    sys.setswitchinterval(1e-5)
    joined(*started(writes, *[lambda thread=thread: reads(thread) for thread in range(4)]))
    sys.setswitchinterval(interval)
    whole = (-(2**31), -(2**31), 2**31 - 1, 2**31 - 1)
    assert {row.id: row.bbox for row in tree.intersection(whole, True)} == {**west, **east, **north} and min(turns) >= 50


def test_signals():
    """A handler of signals may use the tree that it interrupts the use of, and no thread waits for ever."""
    tree, boxes, handled, is_over = RTree(), [(0, 0, n, n) for n in range(1, 9)], [], threading.Event()
    tree.insert(0, boxes[0])

    def handles(*_):
        tree.move(0, random.choice(boxes))
        handled.append(tree.count(boxes[0]) + len(list(tree.intersection(boxes[0], True))))

    def reads():
        while not is_over.is_set():
            assert 0 in tree and tree.count(boxes[0]) >= 1

    faulthandler.dump_traceback_later(120, exit=True)
    others, before = started(reads, reads), signal.signal(signal.SIGALRM, handles)
    signal.setitimer(signal.ITIMER_REAL, 0.002, 0.002)
    while len(handled) < 200:
        tree.insert(1, boxes[1])
        assert sorted(tree.intersection(boxes[0])) == [0, 1] and tree.count(boxes[0], "holds") == 2
        tree.delete(1)
    signal.setitimer(signal.ITIMER_REAL, 0)
    signal.signal(signal.SIGALRM, before)
    is_over.set()
    joined(*others)
    faulthandler.cancel_dump_traceback_later()
    assert set(handled) <= {2, 3, 4} and not tree._guard.reads and not tree._guard.writes


def test_million():
    tree = RTree(1)
    for id in range(2**20):
        tree.insert(id, (id, id))
    assert len(tree) == 2**20 and tree.count((7, 1006)) == 1000


def test_shell():
    shell = Shell(5)
    assert shell.execute("SELECT * FROM t; CREATE VIRTUAL TABLE t USING rtree_i32(id, a, b, +c); INSERT INTO t VAL") == ["refused 1 5: no such table"]
    assert shell.execute("UES (1, 2, 3, 'it''s\n1|2'), (-9, -5, 4, NULL), (7, 0, 0, X'00ff'), (8, 0, 0, '');") == []
    assert shell.rows("SELECT * FROM t;") == [(-9, -5, 4, None), (1, 2, 3, "it's\n1|2"), (7, 0, 0, b"\0\xff"), (8, 0, 0, "")]
    assert shell.execute("SELECT * FROM t;") == ["-9|-5|4|NULL", "1|2|3|'it''s\n1|2'", "7|0|0|X'00FF'", "8|0|0|''"]
    assert shell.rows("SELECT c FROM t WHERE a > 100;") == []
    refusal = raised(StatementRefused, "no such column", shell.rows, "SELECT d FROM t;")
    assert (refusal.statement, refusal.number) == (7, 8)
    raised(ValueError, "something else than rows", shell.rows, "SELECT rtreecheck('t');")
    raised(UnicodeEncodeError, "", shell.execute, "SELECT '\udcff")
    shell.execute("INSERT INTO t VALUES (1, 2, 3")
    assert shell.finish() == ["refused 9 2: incomplete input"]
    assert refused(shell.execute, "SELECT * FROM t;") == refused(shell.rows, "SELECT * FROM t;") == 11


def table():
    shell = Shell()
    assert shell.execute("CREATE VIRTUAL TABLE t USING rtree_i32(id, a, b, +c, +d); INSERT INTO t VALUES (1, 0, 0, NULL, NULL);") == []
    return shell


def test_many_rows():
    """Rows with texts in the same columns, and then with other values there."""
    shell, kept = table(), [(1, 0, 0, None, None)]
    for id in range(2, 602):
        kept.append((id, -id, id * 7, random.choice(["", "it's", "'", "a|b", "a\nb"]), str(id)))
        c = kept[-1][3].replace("'", "''")
        assert shell.execute(f"INSERT INTO t VALUES ({id}, {-id}, {id * 7}, '{c}', '{id}');") == []
    for columns in ((0, 1, 2, 3, 4), (3, 0, 4), (3,), (0, 2), (2,)):
        wanted = [tuple(row[k] for k in columns) for row in kept]
        select = "SELECT " + ", ".join("id a b c d".split()[k] for k in columns) + " FROM t"
        assert shell.rows(select) == wanted and shell.rows(select + " WHERE id > 1") == wanted[1:]


def test_whole_statements():
    """`rows` and `changes` feed whole statements, or nothing."""
    one, shell = [(1,)], table()
    for text in ("", ";", " ", "\n;", " -- done", ";-- ;'\n", " /* ; */ -- '", "; /**/ -- \"", " -- ;", " /* ' */"):
        assert shell.rows("SELECT id FROM t" + text) == one, text
    assert shell.rows("SELECT id FROM t WHERE c IS NULL AND a < 1 -- '") == one
    shell.execute(".watch v FROM t WHERE a <= 5\n")
    assert shell.rows(".view v") == shell.rows(".view v -- ;'\n ") == shell.rows("/* */.view v;") == [(1, 0, 0, None, None)]
    assert shell.rows("SELECT id FROM t WHERE c = ';'") == shell.rows("SELECT id FROM t WHERE c = 'it''s;' -- '") == []
    for text in ("SELECT id FROM t WHERE c = 'a;", 'SELECT "id FROM t;', "SELECT id FROM t /* ;", "/*/", "; /* **"):
        raised(ValueError, "no end here", shell.rows, text)
        raised(ValueError, "no end here", shell.changes, text)
    for begun, end in (("SELECT", " id FROM t;"), ("SELECT id FROM t WHERE c = ';", "' OR;"), (".view v", "\n"), ("/* ;", "*/"), ("-", ";")):
        shell.execute(begun)
        raised(ValueError, "has no end yet", shell.rows, "SELECT id FROM t;")
        raised(ValueError, "has no end yet", shell.changes, "DELETE FROM t;")
        shell.execute(end)
        assert shell.rows("SELECT id FROM t") == one
    shell.execute("SELECT id FROM t WHERE c = '" + "a;" * 40000)
    raised(ValueError, "has no end yet", shell.rows, "SELECT id FROM t;")
    shell.execute("';")
    shell.execute("DROP TABLE none; -- done")
    assert shell.rows("SELECT id FROM t") == one and shell.execute("SELECT id FROM t;") == ["1"]
    assert raised(StatementRefused, "", shell.rows, "SELECT id FROM t; SELECT id FROM none").number == 5


def test_random_statements():
    """Where a text ends, as the shell itself shows: it carries out a statement behind a text only where that has an end."""
    for _ in range(2000):
        text = "".join(random.choice("';\"-/*.\n ax") for _ in range(random.randrange(12)))
        fed, other, whole = table(), table(), table()
        fed.execute(text)
        other.execute(text)
        if other.execute("\nSELECT id FROM t;") == ["1"]:
            assert fed.rows("SELECT id FROM t") == [(1,)], text
        else:
            raised(ValueError, "has no end yet", fed.rows, "SELECT id FROM t")
        try:
            whole.rows(text)
        except StatementRefused:
            pass
        except ValueError:
            other = table()
            other.execute(text + "\n;")
            assert other.execute("SELECT id FROM t;") != ["1"], text
        assert whole.execute("SELECT id FROM t;") == ["1"], text


def test_forged():
    """A text in quotes forges neither a line nor a change; nor does a view's name, which may have quotes and blanks."""
    shell, forged = table(), "x\nrefused 1 5: no such table\n+v 9|9|9|NULL|'\n2"
    literal = "'" + forged.replace("'", "''") + "'"
    names = ["v", "v 1|2|3|'a", "w' 5|5|5|'", "5|'", "refused 1 5: it", 'a"b']
    for name in names:
        doubled = name.replace('"', '""')
        shell.execute(f'.watch "{doubled}" FROM t WHERE a > 0\n')
    insertion = f"INSERT INTO t VALUES (2, 3, 4, {literal}, '''+v');"
    assert shell.execute(insertion + "SELECT c FROM t WHERE id = 2;") == [f"+{name} 2|3|4|{literal}|'''+v'" for name in names] + [literal]
    assert shell.changes("DELETE FROM t WHERE id = 2; SELECT id, d FROM t") == [Change(name, "-", (2, 3, 4, forged, "'+v")) for name in names]
    assert shell.rows("SELECT id FROM t") == [(1,)]
    assert raised(StatementRefused, "no such table", shell.changes, f"{insertion} DELETE FROM u; DELETE FROM t WHERE id = 1;").number == 5
    assert shell.rows("SELECT id FROM t") == [(2,)]
    shell = table()
    shell.execute('.watch "5|" FROM t\n')
    raised(ValueError, "something else than rows is printed: -5| 1|0|0|NULL|NULL", shell.rows, "DELETE FROM t")


def test_random_changes():
    """Changes beside those of dicts, with texts and names of the characters that end or join what is printed."""

    def nasty(length):
        return "".join(random.choice("''\"|+- 15NX\nv") for _ in range(length))

    def spelled(value):
        return "NULL" if value is None else str(value) if isinstance(value, int) else "'" + value.replace("'", "''") + "'"

    def joined(row):
        return "|".join(map(spelled, row))

    for _ in range(60):
        shell, rows, views = table(), {1: (1, 0, 0, None, None)}, {}
        while len(views) < 5:
            views[nasty(random.randrange(1, 6)).replace("\n", "_").lower()] = random.randrange(20)
        for name, least in views.items():
            doubled = name.replace('"', '""')
            assert shell.execute(f'.watch "{doubled}" FROM t WHERE a >= {least}\n') == []
        for _ in range(10):
            old, id, at = dict(rows), random.randrange(9), random.randrange(20)
            if random.randrange(3):
                rows[id] = (id, at, at, random.choice([None, 5, nasty(9)]), nasty(6))
                rows[9] = (9, at, at, nasty(3), None)
                statement = "REPLACE INTO t VALUES " + ", ".join("(" + ", ".join(map(spelled, rows[k])) + ")" for k in (9, id))
            else:
                rows.pop(id, None)
                statement = f"DELETE FROM t WHERE id = {id}"
            wanted = [
                Change(name, sign, side[k])
                for name, least in views.items() for k in range(10) if old.get(k) != rows.get(k)
                for sign, side in (("-", old), ("+", rows)) if k in side and side[k][1] >= least
            ]
            if random.randrange(2):
                assert shell.changes(statement) == wanted
            else:
                assert shell.execute(statement + ";") == [f"{it.sign}{it.view} {joined(it.row)}" for it in wanted]
        kept = [rows[id] for id in sorted(rows)]
        assert shell.rows("SELECT * FROM t") == kept and shell.execute("SELECT * FROM t;") == list(map(joined, kept))


def test_version():
    major, minor, patch = map(int, juicedelta.__version__.split("."))
    assert _calls.library.juicedelta_version() == major * 1000000 + minor * 1000 + patch


def test_memory():
    tree = RTree()
    packed = tree._form.packed((0, 0, 1, 1))
    os.write(2, b"<")
    code = _calls.tree_insert(tree._at, 1, packed, 4)
    os.write(2, b">")
    assert code == 9 and len(tree) == 0


def main(words):
    random.seed(1)
    if words == ["memory"]:
        test_memory()
        return
    for dimension in (1, 2, 3):
        for capacity in (5, 51):
            test_random(dimension, capacity, 3000)
            test_live(dimension, capacity, 1000)
    for test in (test_codes, test_live_codes, test_workers, test_numbers, test_options, test_order, test_threads, test_live_threads, test_signals):
        test()
    assert Item(1, (0, 1)) == (1, (0, 1))
    if words == ["trees"]:
        return
    for test in (test_owners, test_errors, test_shell, test_whole_statements, test_random_statements, test_forged):
        test()
    for test in (test_many_rows, test_random_changes, test_version, test_million):
        test()
    if doctest.testmod(juicedelta) != (0, 30):
        raise SystemExit("a doctest fails, or isn't found")


if __name__ == "__main__":
    main(sys.argv[1:])
    print("bindings/python: passed")

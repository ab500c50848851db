"""Tests of juicedelta.dask on a cluster of this machine, beside one tree, and beside plain lists where the tree isn't the rule.

JUICEDELTA_ROWS gives the number of rows that are joined while a worker is killed.
"""

import array
import os
import random
import signal
import time
from concurrent.futures import ThreadPoolExecutor

import dask
from distributed import Client, LocalCluster
from test import by_distance, raised  # This also finds the package beside it.
from test_rows import parts, random_rows

from juicedelta import JuicedeltaError, RTree
from juicedelta.dask import Plane

ROWS = int(os.environ.get("JUICEDELTA_ROWS", "200000"))
SPAN = 1_000_000


class Reader:
    """A partition that a worker reads, or fails to."""

    def __init__(self, rows):
        self.rows = rows

    def __call__(self):
        if self.rows is None:
            raise OSError("no such file")
        return list(self.rows), list(self.rows.values())


class Drawn:
    """A partition that a worker draws: the rows with these ids. Of ROWS such rows each touches one other, more or less."""

    def __init__(self, ids):
        self.ids = ids

    def __call__(self):
        draw, side, boxes = random.Random(self.ids.start).random, SPAN / ROWS**0.5, array.array("i")
        for _ in self.ids:
            x, y = int(draw() * SPAN), int(draw() * SPAN)
            boxes.extend((x, y, x + int(draw() * side), y + int(draw() * side)))
        return array.array("q", self.ids), boxes


def parts_of(plain, parts):
    """The rows in that many partitions, in each form that one has."""
    dicts = [dict(list(plain.items())[k::parts]) for k in range(parts)]
    forms = [
        Reader, lambda it: (list(it), list(it.values())),
        lambda it: (array.array("q", it), array.array("i", [n for box in it.values() for n in box])),
    ]
    return [forms[k % 3](it) for k, it in enumerate(dicts)] + [([], [])]


def test_plane(client, dimension, tiles):
    plain, other = random_rows(dimension, 1500, 60), random_rows(dimension, 300, 60)
    tree, right = RTree.from_items(plain.items(), dimension), RTree.from_items(other.items(), dimension)
    plane = Plane.from_partitions(client, parts_of(plain, 5), tiles, dimension)
    assert len(plane) == 1500 and plane.bounds == tree.bounds and (tiles == 1) == (len(plane._tiles) == 1)
    windows = list(random_rows(dimension, 20, 500).values())
    for window in windows[:3]:
        found = sorted(tree.intersection(window))
        assert sorted(plane.intersection(window)) == found and plane.count(window) == len(found)
        point = window[:dimension]
        for most in (0, 9, 2000):
            assert list(plane.nearest(point, most)) == list(tree.nearest(point, most)) == by_distance(plain, point)[:most]
        assert list(plane.nearest(window, 9)) == list(tree.nearest(window, 9))
    wanted, found = parts(tree.intersection_many(windows)), parts(plane.intersection_many(windows))
    assert list(map(sorted, found)) == list(map(sorted, wanted))
    second = Plane.from_partitions(client, parts_of(other, 2), 4, dimension)
    assert sorted(zip(*plane.join(second))) == sorted(zip(*tree.join(right)))
    assert sorted(zip(*plane.join())) == sorted(zip(*tree.join()))
    # A window in the corner asks few tiles.
    if tiles > 8:
        corner = tree.bounds[:dimension] * 2
        assert len(plane._touched(corner)) <= 2


def test_errors(client):
    rows = {1: (0, 0, 1, 1), 2: (900, 900, 901, 901)}
    twice = [Reader(rows), ([3, 2], [(0, 0, 1, 1), (-900, 0, 0, 0)])]
    assert raised(JuicedeltaError, "the id is taken", Plane.from_partitions, client, twice, 4).code == 6
    short, few = ([1], [(0, 0, 1)]), ([1, 2], [(0, 0, 1, 1)])
    for wrong, words in ((Reader(None), "no such file"), (short, "4 numbers each"), (few, "2 ids"), (5, "unpack")):
        error = raised(ValueError, "partition 1 can't be read", Plane.from_partitions, client, [Reader(rows), wrong])
        assert words in str(error)
    raised(ValueError, "min is above max", Plane.from_partitions, client, [([1], [(0, 2, 1, 1)])])
    for empty in ([], [([], [])], [Reader({})] * 3):
        plane = Plane.from_partitions(client, empty)
        assert len(plane) == 0 and plane.bounds is None and plane.count((0, 0, 9, 9)) == 0
        assert list(plane.nearest((0, 0), 3)) == list(plane.intersection((0, 0, 9, 9))) == [] and not plane.join(plane).left
        assert parts(plane.intersection_many([(0, 0, 1, 1)])) == [[]]
    plane = Plane.from_partitions(client, [client.submit(Reader(rows)), ([7], [(5, 5, 5, 5)])], 2)
    assert sorted(plane.intersection((0, 0, 2**31 - 1, 2**31 - 1))) == [1, 2, 7]
    raised(ValueError, "4 whole numbers", plane.intersection, (0, 0, 1))
    raised(ValueError, "two numbers of axes", plane.join, Plane.from_partitions(client, [], 1, 1))


def killed_meanwhile(client, call, task):
    """What the call answers, while a worker is killed that has such a task of it to do. The worker is stopped first, so that it ends none."""
    held = client.has_what()
    worker = max(held, key=lambda it: len(held[it]))
    process = client.run(os.getpid, workers=[worker])[worker]
    os.kill(process, signal.SIGSTOP)
    with ThreadPoolExecutor(1) as pool:
        answer = pool.submit(call)
        try:
            while not any(task in key for key in client.processing().get(worker, ())):
                assert not answer.done(), "the stopped worker had nothing to do"
                time.sleep(0.01)
        finally:
            os.kill(process, signal.SIGKILL)
        return answer.result()


def test_many_rows(client):
    """Many rows beside one tree; a worker that is killed in the middle of a join; a bad partition and an id that comes twice."""
    ids = range(-ROWS // 2, ROWS // 2)
    partitions = [Drawn(ids[len(ids) * k // 8 : len(ids) * (k + 1) // 8]) for k in range(8)]
    numbers, boxes = array.array("q"), array.array("i")
    for part in partitions:
        numbers, boxes = numbers + part()[0], boxes + part()[1]
    begun = time.monotonic()
    tree = RTree.from_rows(numbers, boxes)
    packed = time.monotonic()
    plane = Plane.from_partitions(client, [*partitions, ([], [])], 32)
    spread = time.monotonic()
    assert len(plane) == len(tree) == len(ids) and plane.bounds == tree.bounds and len(plane._tiles) > 16
    windows = [(x, y, x + SPAN // 50, y + SPAN // 90) for x, y in zip(range(0, SPAN, SPAN // 40), range(SPAN, 0, -SPAN // 40))]
    found = parts(plane.intersection_many(windows))
    assert list(map(sorted, found)) == list(map(sorted, parts(tree.intersection_many(windows)))) and sum(map(len, found)) > 0
    for window in windows[::8]:
        assert list(plane.nearest(window[:2], 20)) == list(tree.nearest(window[:2], 20)) and plane.count(window) == tree.count(window)
    asked = time.monotonic()
    pairs = sorted(zip(*tree.join()))
    assert sorted(zip(*plane.join())) == pairs and len(pairs) > ROWS // 4
    joined = time.monotonic()
    assert sorted(zip(*killed_meanwhile(client, plane.join, "_join"))) == pairs
    again = time.monotonic()
    assert [plane.count(it) for it in windows] == list(tree.count_many(windows)) and plane.bounds == tree.bounds
    twice = [*partitions, ([ids[-1]], [(-SPAN, -SPAN, -SPAN, -SPAN)])]
    assert raised(JuicedeltaError, "the id is taken", Plane.from_partitions, client, twice, 32).code == 6
    raised(ValueError, "partition 8 can't be read: no such file", Plane.from_partitions, client, [*partitions, Reader(None)])
    print(
        f"{len(ids)} rows and {len(pairs)} pairs: one tree {packed - begun:.1f} s, {len(plane._tiles)} tiles {spread - packed:.1f} s, "
        f"windows {asked - spread:.1f} s, joins {joined - asked:.1f} s, a join that loses a worker {again - joined:.1f} s"
    )


if __name__ == "__main__":
    random.seed(2)
    dask.config.set({"distributed.comm.timeouts.connect": "10s"})  # So long workers look for a lost one.
    with LocalCluster(n_workers=4, threads_per_worker=1, dashboard_address=None, silence_logs=50) as cluster, Client(cluster) as client:
        for dimension, tiles in ((1, 1), (2, 16), (3, 5)):
            test_plane(client, dimension, tiles)
        test_errors(client)
        test_many_rows(client)
    print("bindings/python: passed on a cluster")

"""The same calls on a tree of the Python package, of Debian's python3-rtree, and on a table of Python's sqlite3: calls.py WHO ROWS.

Prints a line of nanoseconds of the processor a call and a checksum for each kind of call, as calls.cpp does. Of `pack`, which makes
a tree of all rows, and `search_10s`, the windows of `search_10` in one call, it prints those a row and a window.
"""

import sys
import time


class Juicedelta:
    def __init__(self):
        from juicedelta import RTree

        self.tree = RTree()

    def insert(self, id, box):
        self.tree.insert(id, box)

    def delete(self, id, box):
        self.tree.delete(id)

    def search(self, box):
        return sum(self.tree.intersection(box))

    def count(self, box):
        return self.tree.count(box)

    def nearest(self, point):
        return len(list(self.tree.nearest(point, 10)))

    def pack(self, boxes):
        return len(type(self.tree).from_rows(range(len(boxes)), boxes))

    def search_many(self, boxes):
        return sum(self.tree.intersection_many(boxes).ids)


class Rtree:
    def __init__(self):
        from rtree.index import Index, Property

        self.tree = Index(properties=Property(leaf_capacity=51, index_capacity=51), interleaved=True)

    def insert(self, id, box):
        self.tree.insert(id, box)

    def delete(self, id, box):
        self.tree.delete(id, box)

    def search(self, box):
        return sum(self.tree.intersection(box))

    def count(self, box):
        return self.tree.count(box)

    def nearest(self, point):
        # With those that are as near as the tenth.
        return min(10, len(list(self.tree.nearest(point + point, 10))))

    def pack(self, boxes):
        return len(type(self.tree)(((id, box, None) for id, box in enumerate(boxes)), properties=self.tree.properties))

    search_many = None  # it has none


class Sqlite:
    TOUCHES = "FROM t WHERE a <= ?3 AND b >= ?1 AND c <= ?4 AND d >= ?2"

    def __init__(self):
        import sqlite3

        self.run = sqlite3.connect(":memory:", isolation_level=None).execute
        self.run("CREATE VIRTUAL TABLE t USING rtree_i32(id, a, b, c, d)")
        self.run("BEGIN")

    def insert(self, id, box):
        self.run("INSERT INTO t VALUES (?, ?, ?, ?, ?)", (id, box[0], box[2], box[1], box[3]))

    def delete(self, id, box):
        self.run("DELETE FROM t WHERE id = ?", (id,))

    def search(self, box):
        return sum(id for id, in self.run("SELECT id " + self.TOUCHES, box))

    def count(self, box):
        return self.run("SELECT count(*) " + self.TOUCHES, box).fetchone()[0]

    nearest = pack = search_many = None  # it has none


def main():
    rows, windows, state = int(sys.argv[2]), 500, 88172645463325252

    def below(n):
        nonlocal state
        state ^= state << 13 & 0xFFFFFFFFFFFFFFFF
        state ^= state >> 7
        state ^= state << 17 & 0xFFFFFFFFFFFFFFFF
        return (state >> 32) % n

    def draw(side):
        x, y = below(1000000), below(1000000)
        return (x, y, x + side, y + side)

    boxes = [draw(below(100)) for _ in range(rows)]
    small, large = zip(*[(draw(10000), draw(100000)) for _ in range(windows)])
    tree = {"juicedelta": Juicedelta, "rtree": Rtree, "sqlite3": Sqlite}[sys.argv[1]]()

    def timed(name, call, inputs):
        begun = time.process_time_ns()
        total = sum(call(*words) or 0 for words in inputs)
        print(name, (time.process_time_ns() - begun) // len(inputs), total)

    def timed_list(name, call, items):
        if call:
            begun = time.process_time_ns()
            total = call(items)
            print(name, (time.process_time_ns() - begun) // len(items), total)

    timed_list("pack", tree.pack, boxes)
    timed("insert", tree.insert, list(enumerate(boxes)))
    timed("search_10", tree.search, [(box,) for box in small])
    timed_list("search_10s", tree.search_many, list(small))
    timed("search_1000", tree.search, [(box,) for box in large])
    timed("count_1000", tree.count, [(box,) for box in large])
    if tree.nearest:
        timed("nearest_10", tree.nearest, [(box[:2],) for box in small])
    timed("delete", tree.delete, [(id, boxes[id]) for id in range(0, rows, 2)])
    timed("left", tree.search, [((0, 0, 2000000, 2000000),)])


main()

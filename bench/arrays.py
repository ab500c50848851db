"""Many rows and many windows from Python: arrays.py WHO ROWS WINDOWS, where WHO is juicedelta, shapely or rtree.

Prints a line of nanoseconds of the processor and a checksum for each kind of call: `load`, a row, makes a tree of arrays of ids and
boxes, or of what the library takes in their place; `many`, a window, finds the ids of the rows that each window touches in one call,
if there is such a call; `calls` does so in a call each; `shared` in one call that four threads share, in time by the clock. What is only
another form of the input is made before the time is taken.
"""

import array
import random
import sys
import time
import warnings

SPAN = 1_000_000


class Juicedelta:
    def __init__(self, rows, windows):
        from juicedelta import RTree

        ids = array.array("q", range(len(rows) // 4))
        self.load = lambda: RTree.from_rows(ids, rows)
        self.windows, self.each = windows, boxes_of(windows)

    def many(self, tree):
        return tree.intersection_many(self.windows).ids

    def calls(self, tree):
        return [id for box in self.each for id in tree.intersection(box)]

    def shared(self, tree):
        return tree.intersection_many(self.windows, workers=4).ids


class Shapely:
    shared = None

    def __init__(self, rows, windows):
        import shapely
        from shapely.strtree import STRtree

        shapes, self.each = shapes_of(shapely, rows), shapes_of(shapely, windows)
        self.is_new = hasattr(shapely, "STRtree")
        self.many = self.many_new if self.is_new else None
        warnings.simplefilter("ignore")  # The old version warns of the new one.
        self.load = lambda: self.built(STRtree(shapes))

    def built(self, tree):
        """The tree, after the first query, which packs it."""
        self.found(tree, self.each[0])
        return tree

    def found(self, tree, shape):
        return tree.query(shape).tolist() if self.is_new else tree.query_items(shape)

    def many_new(self, tree):
        return tree.query(self.each)[1].tolist()

    def calls(self, tree):
        return [id for shape in self.each for id in self.found(tree, shape)]


class Rtree:
    many = shared = None  # The version of Debian 12 has no such call.

    def __init__(self, rows, windows):
        from rtree.index import Index

        boxes, self.each = boxes_of(rows), boxes_of(windows)
        self.load = lambda: Index((id, box, None) for id, box in enumerate(boxes))

    def calls(self, tree):
        return [id for box in self.each for id in tree.intersection(box)]


def boxes_of(numbers):
    return list(zip(*[iter(numbers)] * 4))


def shapes_of(shapely, numbers):
    """Diagonals, whose envelopes are the boxes: the tree keeps envelopes alone."""
    from shapely.geometry import LineString

    if hasattr(shapely, "box"):
        return shapely.box(*(numbers[k::4] for k in range(4)))
    return [LineString(((west, south), (east, north))) for west, south, east, north in boxes_of(numbers)]


def drawn(count, side):
    """So many boxes, with sides of up to `side`, one after another."""
    numbers = array.array("i")
    for _ in range(count):
        x, y = int(random.random() * SPAN), int(random.random() * SPAN)
        numbers.extend((x, y, x + int(random.random() * side), y + int(random.random() * side)))
    return numbers


def main():
    who, rows, windows = sys.argv[1], int(sys.argv[2]), int(sys.argv[3])
    random.seed(1)
    # A window finds about ten rows.
    library = {"juicedelta": Juicedelta, "shapely": Shapely, "rtree": Rtree}[who](
        drawn(rows, 100), drawn(windows, 2 * SPAN * (10 / rows) ** 0.5)
    )

    def timed(name, call, count, *words):
        clock = time.perf_counter_ns if name == "shared" else time.process_time_ns
        begun = clock()
        answer = call(*words)
        taken = clock() - begun
        print(name, taken // count, sum(answer) if name != "load" else rows, flush=True)
        return answer

    tree = timed("load", library.load, rows)
    for name in ("many", "calls", "shared"):
        if getattr(library, name):
            timed(name, getattr(library, name), windows, tree)


main()

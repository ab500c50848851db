"""Trees over the memory of a cluster of Dask: a plane of tiles, each a tree on a worker.

It uses a `distributed.Client` that is given, and imports nothing of Dask. The workers need this package and the library.
"""

from __future__ import annotations

import array
import math
from bisect import bisect_right
from collections import Counter
from itertools import chain, count
from operator import add
from typing import Any, Dict, Iterable, Iterator, List, NamedTuple, Optional, Sequence, SupportsIndex, Tuple, Union

from ._buffers import array_of, zeros
from ._errors import ID_TAKEN, error_of
from ._form import Form
from ._many import Columns, Pairs
from ._spread import Many
from ._trees import RTree

Box = Tuple[int, ...]
_SAMPLE = 1000  # Rows of each partition, which say where the tiles lie.


class Plane:
    """Rows in tiles, which workers keep. Each row is in one tile; a call asks the tiles whose hulls can answer.

    The answers are those of one tree of all rows. The rows stay as they are. Of a worker that is lost others make the tiles
    again, from the partitions.
    """

    def __init__(self, client: Any, dimension: int, tiles: List[Any]) -> None:
        """`from_partitions` makes the tiles."""
        self.dimension = dimension
        self._client = client
        told = client.gather(client.map(_told, tiles))
        self._tiles = [tile for tile, (rows, _) in zip(tiles, told) if rows]
        self._hulls: List[Box] = [hull for rows, hull in told if rows]
        self._rows: int = sum(rows for rows, _ in told)

    @classmethod
    def from_partitions(
        cls, client: Any, partitions: Iterable[Any], tiles: SupportsIndex = 16, dimension: SupportsIndex = 2,
        capacity: SupportsIndex = 51
    ) -> Plane:
        """A plane of about that many tiles, cut sort-tile-recursively by a sample of the rows.

        A partition is a pair of ids and boxes, as `RTree.from_rows` takes them, a future of one, or a function that a
        worker calls for one. A partition that can't be read is a ValueError with its place, and an id that comes twice a
        JuicedeltaError.
        """
        axes, form = int(dimension), Form(int(dimension))
        parts = [client.submit(_read, it, place, form.axes, pure=False) for place, it in enumerate(partitions)]
        sample = list(chain.from_iterable(client.gather(client.map(_sample, parts, axes=axes))))
        numbers = count()
        cuts = _cuts(sample, max(int(tiles), 1), 0, axes, numbers)
        buckets = max(len(parts), 1)
        by_id = [client.submit(_buckets, part, buckets, pure=False) for part in parts]
        twice = client.gather([client.submit(_twice, by_id, bucket, pure=False) for bucket in range(buckets)])
        if any(it is not None for it in twice):
            raise error_of(ID_TAKEN)
        split = [client.submit(_split, part, cuts, axes, pure=False) for part in parts]
        packed = [client.submit(_pack, split, tile, axes, int(capacity), pure=False) for tile in range(next(numbers))]
        return cls(client, axes, packed)

    def __len__(self) -> int:
        return self._rows

    def __repr__(self) -> str:
        return f"<Plane of {self.dimension} axes with {len(self)} rows in {len(self._tiles)} tiles>"

    @property
    def bounds(self) -> Optional[Box]:
        """The least box around all rows, or None if there are none."""
        ends, axes = list(zip(*self._hulls)), self.dimension
        return tuple([min(it) for it in ends[:axes]] + [max(it) for it in ends[axes:]]) if ends else None

    def intersection(self, coordinates: Iterable[SupportsIndex]) -> Iterator[int]:
        """The ids of the rows that have a point in common with the box, in no stated order."""
        box = self._box(coordinates)
        return chain.from_iterable(self._asked(_intersection, self._touched(box), box))

    def count(self, coordinates: Iterable[SupportsIndex]) -> int:
        """How many rows have a point in common with the box."""
        box = self._box(coordinates)
        return sum(self._asked(_number, self._touched(box), box))

    def intersection_many(self, boxes: Any) -> Many:
        """The ids of the rows that each window finds."""
        width = 2 * self.dimension
        numbers = array_of(boxes, "i", "boxes", width)
        windows = list(zip(*[iter(numbers)] * width))
        places = [[k for k, window in enumerate(windows) if _touch(window, hull)] for hull in self._hulls]
        asked = [tile for tile, found in enumerate(places) if found]
        own = [[windows[k] for k in found] for found in places]
        futures = [self._client.submit(_many, self._tiles[it], own[it], pure=False) for it in asked]
        ids: List[List[int]] = [[] for _ in windows]
        for tile, found in zip(asked, self._client.gather(futures)):
            for place, begin, end in zip(places[tile], found.starts, found.starts[1:]):
                ids[place] += found.ids[begin:end]
        starts = array.array("q", [0])
        for it in ids:
            starts.append(starts[-1] + len(it))
        return Many(array.array("q", chain.from_iterable(ids)), starts)

    def nearest(self, coordinates: Iterable[SupportsIndex], num_results: SupportsIndex = 1) -> Iterator[int]:
        """The ids of the rows nearest to a point or a box, the nearest first, of equal ones the lower id."""
        place, most = tuple(map(int, coordinates)), max(int(num_results), 0)
        box = self._box(place if len(place) > self.dimension else place * 2)
        far = [_squared(box, hull) for hull in self._hulls]
        left = sorted(range(len(far)), key=far.__getitem__)
        found: List[Tuple[int, int]] = []
        # The nearest tiles, one after another, until there are rows enough; then those that may have nearer ones.
        while left and most and len(found) < most:
            found += chain.from_iterable(self._asked(_nearest, [left.pop(0)], box, most))
        found.sort()
        if len(found) >= most > 0:
            last = found[most - 1][0]
            found += chain.from_iterable(self._asked(_nearest, [it for it in left if far[it] <= last], box, most))
        return iter([id for _, id in sorted(found)[:most]])

    def join(self, other: Optional[Plane] = None) -> Pairs:
        """Each pair of rows, one of this plane and one of the other, whose boxes touch, once; or of two rows of this one."""
        right, own = self if other is None else other, other is None
        if right.dimension != self.dimension:
            raise ValueError("the planes have two numbers of axes")
        futures = [
            self._client.submit(_join, tile, None if own and j == i else right._tiles[j], own, pure=False)
            for i, tile in enumerate(self._tiles)
            for j in range(i if own else 0, len(right._tiles))
            if _touch(self._hulls[i], right._hulls[j])
        ]
        pairs = Pairs(array.array("q"), array.array("q"))
        for lefts, rights in self._client.gather(futures):
            pairs.left.extend(lefts)
            pairs.right.extend(rights)
        return pairs

    def _box(self, coordinates: Iterable[SupportsIndex]) -> Box:
        form = Form(self.dimension)
        return form.unpacked(form.packed(coordinates))

    def _touched(self, box: Box) -> List[int]:
        return [place for place, hull in enumerate(self._hulls) if _touch(box, hull)]

    def _asked(self, call: Any, tiles: Iterable[int], *words: Any) -> List[Any]:
        futures = [self._client.submit(call, self._tiles[it], *words, pure=False) for it in tiles]
        return list(self._client.gather(futures))


def _touch(one: Sequence[int], other: Sequence[int]) -> bool:
    axes = len(one) // 2
    return all(max(one[k], other[k]) <= min(one[k + axes], other[k + axes]) for k in range(axes))


def _squared(one: Sequence[int], other: Sequence[int]) -> int:
    """The squared distance of two boxes."""
    axes = len(one) // 2
    return sum(max(one[k] - other[k + axes], other[k] - one[k + axes], 0) ** 2 for k in range(axes))


# ---- Where tiles lie -------------------------------------------------------------------------------------------------


class _Cuts(NamedTuple):
    """Slabs of an axis: where they are cut, and what each is, cut along the next axis or a tile."""

    ends: List[int]
    slabs: List[Any]


Cuts = Union[int, _Cuts]  # A tile is its number.


def _cuts(centres: List[Box], tiles: int, axis: int, axes: int, numbers: Iterator[int]) -> Cuts:
    """Sort-tile-recursive: slabs with equally many centres, each cut along the next axis."""
    if axis == axes or tiles <= 1:
        return next(numbers)
    slabs = tiles if axis + 1 == axes else math.ceil(tiles ** (1 / (axes - axis)))
    centres.sort(key=lambda it: it[axis])
    parts = [centres[len(centres) * k // slabs : len(centres) * (k + 1) // slabs] for k in range(slabs)]
    ends = [part[0][axis] for part in parts[1:] if part]
    return _Cuts(ends, [_cuts(part, -(-tiles // slabs), axis + 1, axes, numbers) for part in parts[: len(ends) + 1]])


def _tile_of(centre: Sequence[int], cuts: Cuts) -> int:
    for place in centre:
        if isinstance(cuts, int):
            break
        cuts = cuts.slabs[bisect_right(cuts.ends, place)]
    return cuts  # type: ignore[return-value]


# ---- What workers do -------------------------------------------------------------------------------------------------


def _read(partition: Any, place: int, axes: int) -> Columns:
    try:
        ids, boxes = partition() if callable(partition) else partition
        rows = Columns(array_of(ids, "q", "ids"), Form(axes).list_of_boxes(boxes))
        if len(rows.boxes) != 2 * axes * len(rows.ids):
            raise ValueError(f"{len(rows.ids)} ids have {len(rows.boxes)} numbers")
        return rows
    except Exception as error:
        raise ValueError(f"partition {place} can't be read: {error}") from error


def _centres(rows: Columns, axes: int, step: int = 1) -> Iterator[Box]:
    """Twice the middle of each box, or of one in `step`."""
    lows, highs = [[rows.boxes[k + shift :: 2 * axes * step] for k in range(axes)] for shift in (0, axes)]
    return zip(*[map(add, low, high) for low, high in zip(lows, highs)])


def _sample(rows: Columns, axes: int) -> List[Box]:
    return list(_centres(rows, axes, max(len(rows.ids) // _SAMPLE, 1)))


def _buckets(rows: Columns, buckets: int) -> List[List[int]]:
    found: List[List[int]] = [[] for _ in range(buckets)]
    for id in rows.ids:
        found[id % buckets].append(id)
    return found


def _twice(parts: List[List[List[int]]], bucket: int) -> Optional[int]:
    """An id of the bucket that comes twice."""
    seen: Dict[int, None] = {}
    for id in chain.from_iterable(part[bucket] for part in parts):
        if id in seen:
            return id
        seen[id] = None
    return None


def _split(rows: Columns, cuts: Cuts, axes: int) -> Dict[int, Columns]:
    """The rows of each tile."""
    width, boxes, found, end = 2 * axes, zeros("i", len(rows.boxes)), {}, 0
    tiles = [_tile_of(centre, cuts) for centre in _centres(rows, axes)]
    order = sorted(range(len(tiles)), key=tiles.__getitem__)
    ids = array.array("q", map(rows.ids.__getitem__, order))
    for k in range(width):
        boxes[k::width] = array.array("i", map(rows.boxes[k::width].__getitem__, order))
    for tile, its in sorted(Counter(tiles).items()):
        begin, end = end, end + its
        found[tile] = Columns(ids[begin:end], boxes[width * begin : width * end])
    return found


def _pack(parts: List[Dict[int, Columns]], tile: int, axes: int, capacity: int) -> RTree:
    ids, boxes = array.array("q"), array.array("i")
    for part in parts:
        if tile in part:
            ids += part[tile].ids
            boxes += part[tile].boxes
    return RTree.from_rows(ids, boxes, axes, capacity)


def _told(tree: RTree) -> Tuple[int, Optional[Box]]:
    return len(tree), tree.bounds


def _intersection(tree: RTree, box: Box) -> List[int]:
    return list(tree.intersection(box))


def _number(tree: RTree, box: Box) -> int:
    return tree.count(box)


def _many(tree: RTree, windows: List[Box]) -> Many:
    return tree.intersection_many(windows)


def _nearest(tree: RTree, box: Box, most: int) -> List[Tuple[int, int]]:
    return [(_squared(box, item.bbox), item.id) for item in tree.nearest(box, most, objects=True)]


def _join(tree: RTree, other: Optional[RTree], own: bool) -> Pairs:
    """The pairs of two trees; in those of two tiles of one plane the lower id goes to the left."""
    pairs = tree.join(other)
    if own and other is not None:
        lows, highs = [[end(it) for it in zip(*pairs)] for end in (min, max)]
        return Pairs(array.array("q", lows), array.array("q", highs))
    return pairs

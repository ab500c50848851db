"""Calls for many rows, many windows and whole trees."""

from __future__ import annotations

import array
import ctypes
import sqlite3
from itertools import chain
from operator import itemgetter
from typing import (
    Any, Dict, Iterable, Iterator, List, Literal, NamedTuple, Optional, Sequence, SupportsIndex, Tuple, TypeVar
)

from ._buffers import array_of, at, zeros
from ._calls import (
    Call,
    tree_bounds,
    tree_count_many,
    tree_insert_rows,
    tree_join,
    tree_join_self,
    tree_len,
    tree_nearest_many,
    tree_open_bytes,
    tree_open_rows,
    tree_rows,
    tree_search_many,
    tree_to_bytes,
)
from ._errors import BUFFER_TOO_SMALL, EMPTY, accept, error_at
from ._form import Form
from ._grid import Grid
from ._owner import Guard, Owner, capacity_of, whole
from ._spread import Buffer, Found, Many, Share, buffer_of, joined, sample_of, shares_of, side_by_side, threads_for
from ._sqlite import all_or_nothing, create, find, parts_of, quoted, replace_rows, table_of

Relation = Literal["touches", "within", "holds"]
NUMBER_OF: Dict[str, ctypes.c_uint32] = {
    name: ctypes.c_uint32(number) for number, name in enumerate(("touches", "within", "holds"))
}
M = TypeVar("M", bound="ManyRows")


class Item(NamedTuple("Item", [("id", int), ("bbox", Tuple[Any, ...])])):
    """A row of a tree: equal to another with the same id and box. `object` is what was inserted with it, or None."""

    object: Any = None


class Pairs(NamedTuple):
    """Pairs of ids: those of one place belong together."""

    left: array.array[int]
    right: array.array[int]


class Columns(NamedTuple):
    """Many rows: their ids, and the numbers of their boxes, one box after another."""

    ids: array.array[int]
    boxes: array.array[Any]


def relation_of(name: str) -> ctypes.c_uint32:
    number = NUMBER_OF.get(name)
    if number is None:
        raise ValueError("relation is 'touches', 'within' or 'holds'")
    return number


class ManyReads(Owner):
    """Rows by the calls that read many of them, or for many windows.

    A list of ids or of boxes is a buffer of whole numbers, such as NumPy's arrays and `array.array`, or an iterable. A
    buffer of boxes has a box a line, or one box after another. The results are of `array.array`: NumPy's `asarray` makes
    arrays of them without a copy.
    """

    _guard: Guard
    _form: Form
    _objects: Dict[int, Any]

    def _start(
        self, dimension: int, form: Form, opening: Call, *words: object, place: Optional[ctypes.c_uint64] = None
    ) -> None:
        if self._at is None:
            self._guard = Guard()
        self._hold(opening, dimension, *words, place=place)
        self.dimension, self._form, self._objects = dimension, form, {}

    def columns(self) -> Columns:
        """All rows, in an order of the tree's own."""
        ids, boxes = self._all(tree_rows, len(self))
        return Columns(ids, self._form.columns(boxes))

    def _all(self, call: Call, room: int) -> Tuple[array.array[int], array.array[int]]:
        """All rows that the call writes. It is called again if there is no room for them all."""
        total = room + 1
        while total > room:
            ids, boxes, total = self._part(call, 0, room)
            room = max(room, total)
        return ids, boxes

    def _part(self, call: Call, place: int, room: int) -> Tuple[array.array[int], array.array[int], int]:
        """Rows from that place on, as many as there is room for, and how many there are."""
        width, total = self._form.width, ctypes.c_uint64()
        ids, boxes = zeros("q", room), zeros("i", width * room)
        there = (at(ids), room, at(boxes), width * room, ctypes.byref(total))
        accept(self._guard.read(call, self._at, place, *there))
        rows = min(room, max(total.value - place, 0))
        del ids[rows:], boxes[width * rows :]
        return ids, boxes, total.value

    def _items(self, ids: Iterable[int], boxes: Iterator[Tuple[Any, ...]]) -> Iterator[Item]:
        items = map(Item, ids, boxes)
        return map(self._with_object, items) if self._objects else items

    def _with_object(self, item: Item) -> Item:
        item.object = self._objects.get(item.id)
        return item

    @property
    def bounds(self) -> Optional[Tuple[Any, ...]]:
        """The least box around all rows, or None if there are none."""
        form, numbers = self._form, zeros("i", self._form.width)
        code = self._guard.read(tree_bounds, self._at, at(numbers), form.width)
        if code == EMPTY:
            return None
        accept(code)
        return form.unpacked(numbers)

    def intersection_many(self, boxes: Any, relation: Relation = "touches", workers: SupportsIndex = 1) -> Many:
        """The ids of the rows that each window finds, as `intersection`, `contains` or `covering`.

        If there are many windows, `workers` threads share them; -1 stands for a thread for each processor. A write of
        another thread may then come between their shares.
        """
        number, windows = relation_of(relation), self._form.list_of_boxes(boxes)
        each = self._ids_each(number, windows)
        return self._many(tree_search_many, (number,), windows, self._form.width, (), each, workers)

    def _ids_each(self, number: ctypes.c_uint32, windows: array.array[int]) -> int:
        """How many ids to make room for, a window: more than a sample finds, since too little means a second search."""
        sample = sample_of(windows, self._form.width)
        if not sample:
            return 16
        counts = zeros("q", len(sample) // self._form.width)
        accept(self._guard.read(tree_count_many, self._at, number, *_list(sample), at(counts), len(counts)))
        return 2 + sum(counts) * 5 // (4 * len(counts))

    def nearest_many(self, points: Any, num_results: SupportsIndex = 1, workers: SupportsIndex = 1) -> Many:
        """The ids of the rows nearest to each point, the nearest first. For `workers` see `intersection_many`."""
        axes, most = self._form.axes, min(max(whole(num_results, "num_results"), 0), len(self))
        return self._many(tree_nearest_many, (), self._form.list_of_points(points), axes, (most,), most, workers)

    def _many(
        self, call: Call, before: Tuple[object, ...], numbers: array.array[int], width: int, behind: Tuple[object, ...],
        each: int, workers: SupportsIndex
    ) -> Many:
        """What a call finds that takes the numbers between other words. At first there is room for `each` ids a place."""
        threads = threads_for(workers)
        shares = shares_of(numbers, width, threads)
        spare: List[Buffer] = []

        def found(share: Share) -> Found:
            count, total = share.length // width, ctypes.c_uint64()
            buffer, starts = buffer_of(spare, each * count, len(shares) > 1), zeros("q", count)
            words = (*before, *share.words(), *behind, at(starts), count)
            while True:
                code = self._guard.read(call, self._at, *words, buffer.at, buffer.room, ctypes.byref(total))
                if code != BUFFER_TOO_SMALL:
                    accept(code)
                    return Found(buffer, total.value, starts)
                buffer = Buffer(total.value + total.value // 8, len(shares) > 1)

        return joined(side_by_side(found, shares, threads), spare)

    def count_many(
        self, boxes: Any, relation: Relation = "touches", workers: SupportsIndex = 1
    ) -> array.array[int]:
        """How many rows each window finds. For `workers` see `intersection_many`."""
        width, number = self._form.width, relation_of(relation)
        windows, threads = self._form.list_of_boxes(boxes), threads_for(workers)
        counts = zeros("q", len(windows) // width)

        def count(share: Share) -> None:
            place = at(counts) + counts.itemsize * (share.begin // width)
            accept(self._guard.read(tree_count_many, self._at, number, *share.words(), place, share.length // width))

        for _ in side_by_side(count, shares_of(windows, width, threads), threads):
            pass
        return counts

    def join(self, other: Optional[ManyReads] = None) -> Pairs:
        """Each pair of rows, one of this tree and one of the other, whose boxes touch, once, in no stated order.

        Without another tree: each pair of two rows of this one, the lower id on the left.
        """
        total, room, code = ctypes.c_uint64(), 4 * len(self), BUFFER_TOO_SMALL
        if other is not None and other._form.grid != self._form.grid:
            raise ValueError("the trees have two grids")
        while code == BUFFER_TOO_SMALL:
            left, right = zeros("q", room), zeros("q", room)
            there = (at(left), room, at(right), room, ctypes.byref(total))
            if other is None:
                code = self._guard.read(tree_join_self, self._at, *there)
            else:
                # All joins enter two trees in one order. Else two joins could wait for two writes, and these for them.
                first, second = sorted((self._guard, other._guard), key=id)
                code = first.read(second.read, tree_join, self._at, other._at, *there)
            room = total.value
        accept(code)
        del left[room:], right[room:]
        return Pairs(left, right)

    def to_bytes(self) -> bytes:
        """The tree in a compact form, without its objects; `from_bytes` makes the same tree of it."""
        room, total, code = 0, ctypes.c_uint64(), BUFFER_TOO_SMALL
        while code == BUFFER_TOO_SMALL:
            text = ctypes.create_string_buffer(max(room, 1))
            code = self._guard.read(tree_to_bytes, self._at, text, room, ctypes.byref(total))
            room = total.value
        accept(code)
        return text.raw[:room]

    def __len__(self) -> int:
        rows = ctypes.c_uint64()
        accept(self._guard.read(tree_len, self._at, ctypes.byref(rows)))
        return rows.value


class ManyRows(ManyReads):
    """A tree by its calls for many rows."""

    @classmethod
    def from_rows(
        cls: type[M], ids: Any, boxes: Any, dimension: SupportsIndex = 2, capacity: SupportsIndex = 51, *,
        objects: Optional[Iterable[Any]] = None, grid: Optional[Grid] = None, interleaved: bool = True
    ) -> M:
        """A tree of many rows, packed all at once: much sooner made and searched than by many insertions."""
        form = form_of(dimension, grid, interleaved)
        return cls._packed(form, capacity, array_of(ids, "q", "ids"), form.list_of_boxes(boxes), objects)

    @classmethod
    def _packed(
        cls: type[M], form: Form, capacity: SupportsIndex, ids: array.array[int], boxes: array.array[int],
        objects: Optional[Iterable[Any]]
    ) -> M:
        tree, place, by_ids = cls.__new__(cls), ctypes.c_uint64(), _by_ids(ids, objects)
        tree._start(form.axes, form, tree_open_rows, capacity_of(capacity), *_list(ids), *_list(boxes), place=place)
        tree._objects.update(by_ids)
        return tree

    @classmethod
    def from_items(cls: type[M], items: Iterable[Tuple[Any, ...]], *options: SupportsIndex, **others: Any) -> M:
        """A packed tree of a stream of `(id, box)` or `(id, box, object)`. The options are those of `from_rows`."""
        ids: List[Any] = []
        boxes: List[Any] = []
        objects: List[Any] = []
        for id, box, *more in items:
            ids.append(id)
            boxes.append(tuple(box))
            objects.append(more[0] if more else None)
        return cls.from_rows(ids, boxes, *options, objects=objects, **others)

    def insert_many(self, ids: Any, boxes: Any, objects: Optional[Iterable[Any]] = None) -> None:
        """Inserts all rows, or none: the error of a row that is refused tells its place."""
        form, place = self._form, ctypes.c_uint64()
        rows, numbers = array_of(ids, "q", "ids"), form.list_of_boxes(boxes)
        pairs = _by_ids(rows, objects)
        code = self._guard.write(tree_insert_rows, self._at, *_list(rows), *_list(numbers), ctypes.byref(place))
        if code:
            raise error_at(code, place)
        self._objects.update(pairs)

    def rows(self, part: SupportsIndex = 4096) -> Iterator[Item]:
        """All rows, read `part` at a time. The tree stays as it is meanwhile."""
        place, room, form = 0, max(whole(part, "part"), 1), self._form
        while True:
            ids, boxes, total = self._part(tree_rows, place, room)
            yield from self._items(ids, form.boxes(boxes))
            place += len(ids)
            if place >= total or not ids:
                return

    @classmethod
    def from_bytes(
        cls: type[M], data: Any, dimension: SupportsIndex = 2, *, grid: Optional[Grid] = None, interleaved: bool = True
    ) -> M:
        """The tree of `dimension` axes that `to_bytes` wrote. Other bytes are an error, as are those of other axes."""
        tree, form, text = cls.__new__(cls), form_of(dimension, grid, interleaved), bytes(data)
        tree._start(form.axes, form, tree_open_bytes, text, len(text))
        return tree

    @classmethod
    def from_sqlite(
        cls: type[M], connection: sqlite3.Connection, table: str, capacity: SupportsIndex = 51, *,
        grid: Optional[Grid] = None
    ) -> M:
        """The rows of an rtree_i32 table, packed. The object of a row is a tuple of its auxiliary values, if it has any."""
        found = table_of(connection, table)
        ids, boxes, width = array.array("q"), array.array("i"), 1 + 2 * found.axes
        objects: List[Any] = []
        names = [found.columns[0], *found.columns[1:width:2], *found.columns[2:width:2], *found.auxiliary]
        for part in parts_of(connection, found, map(quoted, names)):
            ids.extend(map(itemgetter(0), part))
            boxes.extend(chain.from_iterable(map(itemgetter(slice(1, width)), part)))
            objects += map(itemgetter(slice(width, None)), part) if found.auxiliary else [None] * len(part)
        return cls._packed(Form(found.axes, grid), capacity, ids, boxes, objects)

    def to_sqlite(self, connection: sqlite3.Connection, table: str, auxiliary: Sequence[str] = ()) -> None:
        """Puts the rows into an rtree_i32 table in place of its own. A table that is missing is made, with these auxiliary
        columns.

        The object of a row is a tuple with a value for each auxiliary column, or None. With a grid the table gets the
        whole numbers.
        """
        ids, boxes = self._all(tree_rows, len(self))
        ends = [boxes[k :: 2 * self.dimension] for axis in range(self.dimension) for k in (axis, axis + self.dimension)]
        with all_or_nothing(connection):
            found = find(connection, table) or create(connection, table, self.dimension, auxiliary)
            if found.axes != self.dimension:
                raise ValueError(f"table {table} has {found.axes} axes, and the tree {self.dimension}")
            none = (None,) * len(found.auxiliary)
            values = [self._objects.get(id, none) for id in ids] if none else []
            if set(map(len, values)) - {len(none)}:
                raise ValueError(f"an object isn't a tuple of {len(none)} values")
            replace_rows(connection, found, [ids, *ends, *(zip(*values) if values else [()] * len(none))])

    def __reduce_ex__(self, protocol: SupportsIndex) -> Any:
        state = (type(self), self.to_bytes(), self.dimension, self._form.grid, self._form.interleaved, self._objects)
        return _rebuilt, state


def _rebuilt(
    cls: type[M], data: bytes, dimension: int, grid: Optional[Grid], interleaved: bool, objects: Dict[int, Any]
) -> M:
    tree = cls.from_bytes(data, dimension, grid=grid, interleaved=interleaved)
    tree._objects.update(objects)
    return tree


def form_of(dimension: SupportsIndex, grid: Optional[Grid], interleaved: bool) -> Form:
    """The form of a tree with these options."""
    axes = whole(dimension, "dimension")
    if axes not in (1, 2, 3):
        raise ValueError("dimension is 1, 2 or 3")
    return Form(axes, grid, interleaved)


def _list(numbers: array.array[int]) -> Tuple[int, int]:
    return at(numbers), len(numbers)


def _by_ids(ids: array.array[int], objects: Optional[Iterable[Any]]) -> Dict[int, Any]:
    """The objects that there are, by the ids of their rows."""
    if objects is None:
        return {}
    given = list(objects)
    if len(given) != len(ids):
        raise ValueError(f"{len(given)} objects for {len(ids)} ids")
    return {id: it for id, it in zip(ids, given) if it is not None}

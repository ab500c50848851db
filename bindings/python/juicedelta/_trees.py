"""Trees."""

from __future__ import annotations

import re
import struct
from operator import index
from threading import get_ident
from typing import Any, Optional, SupportsIndex

from ._calls import tree_clear, tree_insert, tree_move, tree_open, tree_open_dump, tree_remove
from ._errors import ID_MISSING, accept, error_of
from ._form import Coordinates, Form
from ._grid import Grid
from ._many import ManyRows, form_of
from ._owner import capacity_of
from ._reads import GREATEST, LEAST, Reads, checked


class RTree(Reads, ManyRows):
    """A map from ids to boxes of `dimension` axes, 1 to 3, that is searched by boxes. Both ends belong to a box.

    Coordinates are the least number of each axis, and then the greatest of each, or, if not `interleaved`, the least and
    the greatest of one axis after another. They and ids are whole numbers; with a grid coordinates are floats, given and
    answered. A call that is refused raises JuicedeltaError. A row may have an object, which stays in Python.

    >>> shops = RTree()
    >>> shops.insert(1, (10, 5, 14, 9))
    >>> shops.insert(2, (30, 0, 42, 6))
    >>> len(shops), 2 in shops, 3 in shops, sorted(shops), shops.box(1)
    (2, True, False, [1, 2], (10, 5, 14, 9))
    >>> list(shops.intersection((0, 0, 20, 8))), list(shops.nearest((29, 3))), shops.count((14, 9, 30, 20))
    ([1], [2], 1)
    >>> list(shops.contains((30, 0, 50, 50))), list(shops.covering((31, 1, 32, 2))), shops.count((0, 0, 50, 50), "within")
    ([2], [2], 2)
    >>> list(shops.intersection((42, 6, 50, 50), objects=True))
    [Item(id=2, bbox=(30, 0, 42, 6))]
    >>> sorted(RTree.from_dump(shops.dump()))
    [1, 2]
    >>> shops.move(2, (15, 0, 27, 6))
    >>> sorted(shops.intersection((0, 0, 20, 8))), shops.bounds
    ([1, 2], (10, 0, 27, 9))
    >>> many = RTree.from_rows(range(1000), [(x, 0, x + 1, 1) for x in range(1000)])
    >>> list(many.count_many([(0, 0, 9, 9), (990, 0, 2000, 0)])), len(many.join().left)
    ([10, 11], 999)
    >>> places = RTree(grid=Grid(10_000_000))
    >>> places.insert(1, (13.405, 52.52, 13.405, 52.52), "Berlin")
    >>> [(item.object, item.bbox) for item in places.nearest((13.4, 52.5), objects=True)]
    [('Berlin', (13.405, 52.52, 13.405, 52.52))]
    """

    def __init__(
        self, dimension: SupportsIndex = 2, capacity: SupportsIndex = 51, *, grid: Optional[Grid] = None,
        interleaved: bool = True
    ) -> None:
        form = form_of(dimension, grid, interleaved)
        self._start(form.axes, form, tree_open, capacity_of(capacity))

    @classmethod
    def from_dump(cls, text: str) -> RTree:
        """The tree of a dump, which `dump`, or `.nodes` in a script, wrote; if its nodes stand in another order, its rows, packed."""
        tree, axes, data = cls.__new__(cls), re.match("rtree ([123]) ", text), text.encode()
        form = Form(int(axes.group(1)) if axes else 2)
        tree._start(form.axes, form, tree_open_dump, data, len(data))
        return tree

    def insert(self, id: SupportsIndex, coordinates: Coordinates, obj: Any = None) -> None:
        """Inserts a row, and an object if one is given. An id that is taken is an error."""
        # Not by `checked`, `Form.packed` and Guard.write, which would take a tenth longer. So in `delete` and `_found`.
        number = id if type(id) is int and LEAST <= id <= GREATEST else checked(id)
        form, guard, me = self._form, self._guard, get_ident()
        try:
            box = form.pack(*coordinates)
        except struct.error as error:
            raise form.unfit() from error
        try:
            guard.writes.append(me)
            if guard.reads:
                guard.wait_for_reads(me)
            code = tree_insert(self._at, number, box, form.length)
        finally:
            guard.writes.remove(me)
            if guard.waiting:
                guard.tell()
        if code:
            raise error_of(code)
        if obj is not None:
            self._objects[number] = obj

    def move(self, id: SupportsIndex, coordinates: Coordinates) -> None:
        """Gives a row another box. An id that is missing is an error."""
        number, form = checked(id), self._form
        box = form.packed(coordinates)
        accept(self._guard.write(tree_move, self._at, number, box, form.length))

    def delete(self, id: SupportsIndex, coordinates: Optional[Coordinates] = None) -> None:
        """Removes a row. An id that is missing is an error, as are coordinates, if given, that aren't those of its box."""
        if coordinates is not None:
            given, box = self._form.unpacked(self._form.packed(coordinates)), self.box(id)
            if given != box:
                raise ValueError(f"the box of row {id} is {box}, not {given}")
        number = id if type(id) is int and LEAST <= id <= GREATEST else checked(id)
        guard, me = self._guard, get_ident()
        try:
            guard.writes.append(me)
            if guard.reads:
                guard.wait_for_reads(me)
            code = tree_remove(self._at, number)
        finally:
            guard.writes.remove(me)
            if guard.waiting:
                guard.tell()
        if code:
            raise error_of(code)
        if self._objects:
            self._objects.pop(number, None)

    def object(self, id: SupportsIndex) -> Any:
        """The object of a row, or None if none was given. An id that is missing is an error."""
        if id not in self:
            raise error_of(ID_MISSING)
        return self._objects.get(index(id))

    def clear(self) -> None:
        """Takes all rows out."""
        accept(self._guard.write(tree_clear, self._at))
        self._objects.clear()

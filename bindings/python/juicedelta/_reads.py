"""Calls that read rows one window, one point or one row at a time."""

from __future__ import annotations

import array
import ctypes
import math
from operator import index
from threading import get_ident
from typing import Any, Iterator, List, Literal, SupportsFloat, SupportsIndex, Tuple, Union, overload

from ._calls import (
    close,
    tree_count,
    tree_dump,
    tree_get,
    tree_nearest,
    tree_nearest_to,
    tree_search,
    tree_search_rows,
    tree_within,
)
from ._errors import BUFFER_TOO_SMALL, ID_MISSING, JuicedeltaError, accept
from ._form import Coordinates, Form
from ._many import Item, ManyReads, NUMBER_OF, Relation, relation_of
from ._owner import whole

LEAST, GREATEST = -(2**63), 2**63 - 1
# Numbers of ctypes pass sooner than Python's.
_TOUCHES, _WITHIN, _HOLDS = NUMBER_OF.values()


class Memory:
    """Memory that a call writes to: `length` words for ids and boxes, and one for how many rows there are."""

    __slots__ = ("length", "cells", "front", "at", "total")

    def __init__(self, length: int) -> None:
        self.length, self.cells = length, array.array("q", bytes(8 * length + 8))
        self.front = self.cells.buffer_info()[0]
        self.at, self.total = ctypes.c_void_p(self.front), ctypes.c_void_p(self.front + 8 * length)


# What is kept for the next calls: one for each of those that there were at once.
_KEPT: List[Memory] = []
FEW, MOST_KEPT = 64, 4096


def taken(least: int) -> Memory:
    """Memory of that many words or more."""
    try:
        memory = _KEPT.pop()
    except IndexError:
        return Memory(max(least, FEW))
    return memory if memory.length >= least else Memory(least)


def given_back(memory: Memory) -> None:
    if memory.length <= MOST_KEPT:
        _KEPT.append(memory)


def ids_in(memory: Memory) -> Iterator[int]:
    """The ids that a call wrote to the memory, which is given back."""
    ids = memory.cells[: memory.cells[memory.length]]
    given_back(memory)
    return iter(ids)


class Reads(ManyReads):
    """Rows that are searched by boxes: those of a tree, or of live windows."""

    def close(self) -> None:
        """Frees what is held. Closing twice does nothing."""
        if self._at is not None:
            self._guard.write(close, self._at)

    def box(self, id: SupportsIndex) -> Tuple[Any, ...]:
        """The box of a row. An id that is missing is an error."""
        number, form, memory = checked(id), self._form, taken(FEW)
        code = self._guard.read(tree_get, self._at, number, memory.at, form.length)
        box = form.unpacked(memory.cells)
        given_back(memory)
        accept(code)
        return box

    def count(self, coordinates: Coordinates, relation: Relation = "touches") -> int:
        """How many rows have a point in common with the box, lie within it, or hold it."""
        number, form, total = relation_of(relation), self._form, ctypes.c_uint64()
        box = form.packed(coordinates)
        accept(self._guard.read(tree_count, self._at, number, box, form.length, ctypes.byref(total)))
        return total.value

    @overload
    def intersection(self, coordinates: Coordinates, objects: Literal[False] = False) -> Iterator[int]: ...

    @overload
    def intersection(self, coordinates: Coordinates, objects: Literal[True]) -> Iterator[Item]: ...

    @overload
    def intersection(
        self, coordinates: Coordinates, objects: bool
    ) -> Union[Iterator[int], Iterator[Item]]: ...

    def intersection(
        self, coordinates: Coordinates, objects: bool = False
    ) -> Union[Iterator[int], Iterator[Item]]:
        """The ids of the rows that have a point in common with the box, in no stated order; with `objects` the rows."""
        return self._found(_TOUCHES, coordinates, objects)

    @overload
    def contains(self, coordinates: Coordinates, objects: Literal[False] = False) -> Iterator[int]: ...

    @overload
    def contains(self, coordinates: Coordinates, objects: Literal[True]) -> Iterator[Item]: ...

    @overload
    def contains(self, coordinates: Coordinates, objects: bool) -> Union[Iterator[int], Iterator[Item]]: ...

    def contains(
        self, coordinates: Coordinates, objects: bool = False
    ) -> Union[Iterator[int], Iterator[Item]]:
        """As `intersection`, the rows of which each point lies in the box: those that it contains."""
        return self._found(_WITHIN, coordinates, objects)

    @overload
    def covering(self, coordinates: Coordinates, objects: Literal[False] = False) -> Iterator[int]: ...

    @overload
    def covering(self, coordinates: Coordinates, objects: Literal[True]) -> Iterator[Item]: ...

    @overload
    def covering(self, coordinates: Coordinates, objects: bool) -> Union[Iterator[int], Iterator[Item]]: ...

    def covering(
        self, coordinates: Coordinates, objects: bool = False
    ) -> Union[Iterator[int], Iterator[Item]]:
        """As `intersection`, the rows that hold each point of the box."""
        return self._found(_HOLDS, coordinates, objects)

    def _found(
        self, relation: ctypes.c_uint32, coordinates: Coordinates, objects: bool
    ) -> Union[Iterator[int], Iterator[Item]]:
        form, guard, me = self._form, self._guard, get_ident()
        box, memory, width = form.packed(coordinates), taken(FEW), 1 + form.axes if objects else 1
        while True:
            room = memory.length // width
            try:
                guard.reads.append(me)
                if guard.writes:
                    guard.wait_for_writes(me)
                if objects:
                    there = (memory.at, room, memory.front + 8 * room, 2 * form.axes * room, memory.total)
                    code = tree_search_rows(self._at, relation, box, form.length, *there)
                else:
                    code = tree_search(self._at, relation, box, form.length, memory.at, room, memory.total)
            finally:
                guard.reads.remove(me)
                if guard.writes:
                    guard.tell()
            if code != BUFFER_TOO_SMALL:
                accept(code)
                return self._found_items(memory, room, form) if objects else ids_in(memory)
            needed = width * memory.cells[memory.length]
            if needed > MOST_KEPT:
                given_back(memory)
            memory = Memory(needed)

    # One with `objects` behind `num_results`, and one with it by name alone, each for a literal and for a bool.
    @overload
    def nearest(
        self, coordinates: Coordinates, num_results: SupportsIndex = 1, objects: Literal[False] = False
    ) -> Iterator[int]: ...

    @overload
    def nearest(
        self, coordinates: Coordinates, num_results: SupportsIndex, objects: Literal[True]
    ) -> Iterator[Item]: ...

    @overload
    def nearest(
        self, coordinates: Coordinates, num_results: SupportsIndex = 1, *, objects: Literal[True]
    ) -> Iterator[Item]: ...

    @overload
    def nearest(
        self, coordinates: Coordinates, num_results: SupportsIndex, objects: bool
    ) -> Union[Iterator[int], Iterator[Item]]: ...

    @overload
    def nearest(
        self, coordinates: Coordinates, num_results: SupportsIndex = 1, *, objects: bool
    ) -> Union[Iterator[int], Iterator[Item]]: ...

    def nearest(
        self, coordinates: Coordinates, num_results: SupportsIndex = 1, objects: bool = False
    ) -> Union[Iterator[int], Iterator[Item]]:
        """The ids of the rows nearest to a point or a box, the nearest first, of equal ones the lower id; with `objects`
        the rows."""
        numbers, form = tuple(coordinates), self._form
        most = num_results if type(num_results) is int else whole(num_results, "num_results")
        room = min(max(most, 0), len(self))
        if len(numbers) > form.axes:
            call, place, length = tree_nearest_to, form.packed(numbers), form.width
        else:
            call, place, length = tree_nearest, form.packed_point(numbers), form.axes
        memory = taken((1 + form.axes) * room)
        accept(self._guard.read(call, self._at, place, length, *_there(memory, room, form)))
        return self._found_items(memory, room, form) if objects else ids_in(memory)

    @overload
    def within(
        self, point: Coordinates, distance: SupportsFloat, objects: Literal[False] = False
    ) -> Iterator[int]: ...

    @overload
    def within(self, point: Coordinates, distance: SupportsFloat, objects: Literal[True]) -> Iterator[Item]: ...

    @overload
    def within(
        self, point: Coordinates, distance: SupportsFloat, objects: bool
    ) -> Union[Iterator[int], Iterator[Item]]: ...

    def within(
        self, point: Coordinates, distance: SupportsFloat, objects: bool = False
    ) -> Union[Iterator[int], Iterator[Item]]:
        """As `nearest`, all rows whose distance from the point is at most this one, which is rounded up to whole steps."""
        form = self._form
        number, at, room = _steps(distance, form), form.packed_point(point), FEW
        while True:
            memory = taken((1 + form.axes) * room)
            room = memory.length // (1 + form.axes)
            accept(self._guard.read(tree_within, self._at, at, form.axes, number, *_there(memory, room, form)))
            if memory.cells[memory.length] < room:
                return self._found_items(memory, room, form) if objects else ids_in(memory)
            given_back(memory)
            room *= 4

    def _found_items(self, memory: Memory, room: int, form: Form) -> Iterator[Item]:
        """The rows that a call wrote: ids, and behind room for that many of them boxes, of a word for each axis."""
        boxes = memory.cells[room : room + form.axes * memory.cells[memory.length]]
        return self._items(ids_in(memory), form.boxes(boxes))

    def dump(self) -> str:
        """The dump, which `rtsh check` checks and `rtsh draw` draws."""
        room, total = 4096, ctypes.c_uint64()
        while True:
            text = ctypes.create_string_buffer(room)
            code = self._guard.read(tree_dump, self._at, text, room, ctypes.byref(total))
            room = total.value
            if code != BUFFER_TOO_SMALL:
                accept(code)
                return text.raw[:room].decode()

    def __repr__(self) -> str:
        try:
            return f"<{type(self).__name__} of {self.dimension} axes with {len(self)} rows>"
        except JuicedeltaError:
            return f"<{type(self).__name__}, closed>"

    def __contains__(self, id: SupportsIndex) -> bool:
        number, memory = checked(id), taken(FEW)
        code = self._guard.read(tree_get, self._at, number, memory.at, self._form.length)
        given_back(memory)
        if code == ID_MISSING:
            return False
        accept(code)
        return True

    def __iter__(self) -> Iterator[int]:
        return iter(self.columns().ids)


def _there(memory: Memory, room: int, form: Form) -> Tuple[object, ...]:
    """Where a call writes rows, ids first."""
    return memory.at, room, memory.front + 8 * room, form.width * room, memory.total


def _steps(distance: SupportsFloat, form: Form) -> int:
    """The distance in whole steps."""
    try:
        steps = math.ceil(distance if form.grid is None else float(distance) * form.grid.scale)
    except (TypeError, ValueError, OverflowError):
        raise ValueError("a distance is a finite number") from None
    if steps < 0:
        raise ValueError("a distance is at least 0")
    return min(steps, 2**64 - 1)


def checked(id: SupportsIndex) -> int:
    try:
        number = index(id)
    except TypeError:
        raise ValueError("ids are whole numbers") from None
    if not LEAST <= number <= GREATEST:
        raise ValueError("ids are whole numbers of 64 bits")
    return number

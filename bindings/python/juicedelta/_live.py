"""Live windows."""

from __future__ import annotations

import array
import ctypes
import threading
from functools import partial
from typing import Any, Callable, List, Literal, NamedTuple, Optional, SupportsIndex, Tuple

from ._buffers import at, zeros
from ._calls import (
    Call,
    live_changes,
    live_insert,
    live_move,
    live_open,
    live_remove,
    live_reserve,
    live_rows,
    live_shift,
    live_unwatch,
    live_watch,
    live_windows,
)
from ._errors import BUFFER_TOO_SMALL, accept
from ._form import Coordinates
from ._grid import Grid
from ._many import Item, form_of
from ._owner import capacity_of, whole
from ._reads import FEW, MOST_KEPT, Memory, Reads, checked, given_back, ids_in, taken

Kind = Literal["left", "came", "moved"]
_KINDS: Tuple[Kind, ...] = ("left", "came", "moved")


class WindowChange(NamedTuple):
    """What a window is told of a row: it `left` the window, it `came` into it, or it `moved`: it has another box, and is in the
    window as before."""

    window: int
    id: int
    kind: Kind


# Sooner than the class, which is a function of Python's.
_change: Callable[..., Any] = partial(tuple.__new__, WindowChange)


class _Told:
    """Memory for that many changes, and for how many there are."""

    __slots__ = ("room", "windows", "ids", "kinds", "count", "to", "there")

    def __init__(self, room: int) -> None:
        self.room, self.count = room, ctypes.c_uint64()
        self.windows, self.ids, self.kinds = zeros("q", room), zeros("q", room), array.array("B", bytes(room))
        length, self.to = ctypes.c_size_t(room), ctypes.byref(self.count)
        lists = [ctypes.c_void_p(at(it)) for it in (self.windows, self.ids, self.kinds)]
        self.there = (lists[0], length, lists[1], length, lists[2], length, self.to)


class Live(Reads):
    """Rows, and windows over them, each an id and a box of `dimension` axes. A window sees the rows that touch it.

    Each edit answers what it told the windows, by rising window and then by rising id. A copy that drops what left and adds
    what came is what the window sees. Boxes, grids and refusals are those of RTree, and its reads answer of the rows. Threads
    edit by turns; a handler of signals that interrupts an edit may read, not edit.

    >>> carts = Live()
    >>> carts.insert(7, (1, 1, 2, 2))
    []
    >>> carts.watch(1, (0, 0, 9, 9))
    [WindowChange(window=1, id=7, kind='came')]
    >>> carts.watch(2, (8, 0, 20, 9))
    []
    >>> for window, id, kind in carts.move(7, (10, 1, 11, 2)):
    ...     print(window, id, kind)
    1 7 left
    2 7 came
    >>> carts.shift(2, (10, 0, 22, 9)), carts.rows(2), list(carts.intersection((0, 0, 9, 9)))
    ([], [7], [])
    >>> carts.delete(7), len(carts), 7 in carts
    ([WindowChange(window=2, id=7, kind='left')], 0, False)
    """

    _turn: threading.RLock
    _is_edited: bool
    _told: _Told

    def __init__(
        self, dimension: SupportsIndex = 2, capacity: SupportsIndex = 51, *, grid: Optional[Grid] = None,
        interleaved: bool = True
    ) -> None:
        form = form_of(dimension, grid, interleaved)
        if self._at is None:
            self._turn, self._is_edited, self._told = threading.RLock(), False, _Told(FEW)
        self._start(form.axes, form, live_open, capacity_of(capacity))

    def insert(self, id: SupportsIndex, coordinates: Coordinates) -> List[WindowChange]:
        """Inserts a row, which comes into the windows that it touches. An id that is taken is an error."""
        return self._set(live_insert, id, coordinates)

    def move(self, id: SupportsIndex, coordinates: Coordinates) -> List[WindowChange]:
        """Gives a row another box. An id that is missing is an error. The same box tells nothing."""
        return self._set(live_move, id, coordinates)

    def delete(self, id: SupportsIndex) -> List[WindowChange]:
        """Removes a row, which leaves the windows that saw it. An id that is missing is an error."""
        return self._edited(live_remove, checked(id))

    def watch(self, window: SupportsIndex, coordinates: Coordinates) -> List[WindowChange]:
        """Puts a window there, which is told of each row that it sees. An id of a window that is taken is an error."""
        return self._set(live_watch, window, coordinates)

    def shift(self, window: SupportsIndex, coordinates: Coordinates) -> List[WindowChange]:
        """Gives a window another box, as a screen that pans or zooms. An id that is missing is an error."""
        return self._set(live_shift, window, coordinates)

    def unwatch(self, window: SupportsIndex) -> List[WindowChange]:
        """Takes a window out, which is told that each row left. An id that is missing is an error."""
        return self._edited(live_unwatch, checked(window))

    def reserve(self, rows: SupportsIndex = 0, windows: SupportsIndex = 0, changes: SupportsIndex = 0) -> None:
        """Makes room for `rows` more rows and `windows` more windows, and for `changes` windows or rows that one edit looks at:
        those around its old box and its new one. The edits that follow need memory for their answers alone, as long as each looks
        at no more than that, and together they insert or move at most `rows` rows, and watch or shift at most `windows` windows."""
        numbers = (whole(rows, "rows"), whole(windows, "windows"), whole(changes, "changes"))
        accept(self._guard.write(live_reserve, self._at, *[min(max(it, 0), 2**64 - 1) for it in numbers]))

    def changes(self) -> List[WindowChange]:
        """What the last edit told."""
        with self._turn:
            return self._read(self._told)

    def rows(self, window: SupportsIndex) -> List[int]:
        """The ids of the rows that a window sees, rising. A window that is missing is an error."""
        number, memory = checked(window), taken(FEW)
        while True:
            code = self._guard.read(live_rows, self._at, number, memory.at, memory.length, memory.total)
            needed = memory.cells[memory.length]
            if code != BUFFER_TOO_SMALL:
                accept(code)
                return list(ids_in(memory))
            if needed > MOST_KEPT:
                given_back(memory)
            memory = Memory(needed)

    def windows(self) -> List[Item]:
        """The windows and their boxes, in no stated order."""
        form = self._form
        ids, boxes = self._all(live_windows, FEW)
        return list(map(Item, ids, form.boxes(boxes)))

    def _set(self, call: Call, id: SupportsIndex, coordinates: Coordinates) -> List[WindowChange]:
        number, form = checked(id), self._form
        return self._edited(call, number, form.packed(coordinates), form.length)

    def _edited(self, call: Call, *words: object) -> List[WindowChange]:
        """Carries out an edit, and answers what it told, before another edit tells something else."""
        with self._turn:
            if self._is_edited:
                raise RuntimeError("an edit is interrupted by another one of its thread")
            self._is_edited = True
            try:
                told = self._told
                accept(self._guard.write(call, self._at, *words, told.to))
                return self._read(told) if told.count.value else []
            finally:
                self._is_edited = False

    def _read(self, told: _Told) -> List[WindowChange]:
        """What the last edit told, by way of such memory, or of more."""
        code = live_changes(self._at, *told.there)
        while code == BUFFER_TOO_SMALL:
            told = _Told(told.count.value)
            code = live_changes(self._at, *told.there)
        accept(code)
        if told.room <= MOST_KEPT:
            self._told = told
        count = told.count.value
        kinds = map(_KINDS.__getitem__, told.kinds[:count])
        return list(map(_change, zip(told.windows[:count], told.ids[:count], kinds)))

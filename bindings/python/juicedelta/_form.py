"""How boxes and points go to the library and come back."""

from __future__ import annotations

import array
import ctypes
import struct
from operator import le
from typing import Any, Callable, Iterable, Iterator, Optional, SupportsFloat, SupportsIndex, Tuple, Union

from ._buffers import array_of, numpy_for, zeros
from ._errors import BAD_BOX, BAD_LENGTH, error_of
from ._grid import Grid

# With a grid they may be floats; else a float is a ValueError.
Coordinates = Iterable[Union[SupportsIndex, SupportsFloat]]


class Form:
    """The number of axes, the order of a box's numbers, and the grid. A call takes it once: another thread may make the
    tree anew."""

    __slots__ = ("axes", "width", "length", "pack", "grid", "interleaved", "_box", "_point", "_to", "_from")

    def __init__(self, axes: int, grid: Optional[Grid] = None, interleaved: bool = True) -> None:
        if grid is not None and len(grid.origin) not in (1, axes):
            raise ValueError("a grid has one origin, or one for each axis")
        self.axes, self.width, self.length = axes, 2 * axes, ctypes.c_size_t(2 * axes)
        self._box, self._point = struct.Struct(f"={2 * axes}i"), struct.Struct(f"={axes}i")
        self.grid, self.interleaved = grid, interleaved
        # Where the caller has each number of the library's box, and where the library has each of the caller's.
        self._to = [*range(0, 2 * axes, 2), *range(1, 2 * axes, 2)]
        self._from = [k // 2 + axes * (k % 2) for k in range(2 * axes)]
        self.pack: Callable[..., bytes] = self._box.pack if grid is None and interleaved else self._pack

    def _pack(self, *numbers: Any) -> bytes:
        if len(numbers) != self.width:
            raise struct.error
        if not self.interleaved:
            numbers = tuple([numbers[k] for k in self._to])
        return self._box.pack(*(numbers if self.grid is None else self.grid.box(numbers)))

    def packed(self, coordinates: Coordinates) -> bytes:
        """A box for the library."""
        try:
            return self.pack(*coordinates)
        except struct.error as error:
            raise self.unfit() from error

    def packed_point(self, coordinates: Coordinates) -> bytes:
        """A point for the library."""
        numbers: Any = coordinates if self.grid is None else self.grid.point(coordinates)  # type: ignore[arg-type]
        try:
            return self._point.pack(*numbers)
        except struct.error as error:
            raise self.unfit(self.axes) from error

    def unfit(self, length: int = 0) -> ValueError:
        """The error for coordinates that don't fit."""
        kind = "whole numbers of 32 bits" if self.grid is None else "numbers"
        return ValueError(f"coordinates are {length or self.width} {kind} here")

    def unpacked(self, cells: Any) -> Tuple[Any, ...]:
        """The box at the front of the library's."""
        return self._given(self._box.unpack_from(cells))

    def boxes(self, cells: Any) -> Iterator[Tuple[Any, ...]]:
        """The library's boxes."""
        boxes = self._box.iter_unpack(cells)
        return boxes if self.grid is None and self.interleaved else map(self._given, boxes)

    def _given(self, box: Tuple[Any, ...]) -> Tuple[Any, ...]:
        if self.grid is not None:
            box = self.grid.floats(box)
        return box if self.interleaved else tuple([box[k] for k in self._from])

    def list_of_boxes(self, values: Any) -> "array.array[int]":
        """Many boxes for the library."""
        width, grid = self.width, self.grid
        numbers = array_of(values, "i" if grid is None else "d", "boxes", width)
        if grid is None and self.interleaved:
            return numbers
        if len(numbers) % width:
            raise error_of(BAD_LENGTH)
        boxes = zeros("i", len(numbers))
        for k in range(width):
            place = k if self.interleaved else self._to[k]
            column = numbers[place::width]
            boxes[k::width] = column if grid is None else grid.column(column, k, k >= self.axes)
        if grid is not None and not self._are_boxes(numbers):
            raise error_of(BAD_BOX)
        return boxes

    def _are_boxes(self, numbers: "array.array[float]") -> bool:
        """Whether no minimum is above its maximum, before both are rounded."""
        width, axes = self.width, self.axes
        ends = [(k, k + axes) if self.interleaved else (2 * k, 2 * k + 1) for k in range(axes)]
        pairs = [(numbers[low::width], numbers[high::width]) for low, high in ends]
        numpy = numpy_for(len(numbers))
        if numpy is not None:
            return all((numpy.asarray(low) <= numpy.asarray(high)).all() for low, high in pairs)
        return all(all(map(le, low, high)) for low, high in pairs)

    def list_of_points(self, values: Any) -> "array.array[int]":
        """Many points for the library."""
        axes, grid = self.axes, self.grid
        if grid is None:
            return array_of(values, "i", "points", axes)
        numbers = array_of(values, "d", "points", axes)
        if len(numbers) % axes:
            raise error_of(BAD_LENGTH)
        points = zeros("i", len(numbers))
        for k in range(axes):
            points[k::axes] = grid.nearest(numbers[k::axes], k)
        return points

    def columns(self, boxes: "array.array[int]") -> "array.array[Any]":
        """Many boxes for the caller."""
        width, grid = self.width, self.grid
        if grid is None and self.interleaved:
            return boxes
        given: array.array[Any] = array.array("i" if grid is None else "d", [0]) * len(boxes)
        for k in range(width):
            column: array.array[Any] = boxes[k::width]
            if grid is not None:
                column = grid.back(column, k)
            given[(k if self.interleaved else self._to[k]) :: width] = column
        return given

"""Grids: boxes of floats as boxes of whole numbers, and back."""

from __future__ import annotations

import array
import math
from itertools import repeat
from operator import add, gt, le, mul, neg, sub, truediv
from typing import Any, Iterable, Sequence, SupportsFloat, Tuple, Union

from ._buffers import numpy_for

_LEAST, _GREATEST = -(2**31), 2**31 - 1
_FINEST = 2.0**49


class Grid:
    """`scale` whole numbers a unit, from `origin` on, which is a number, or one for each axis.

    The whole number k stands for the float origin + k / scale. A box of floats becomes the least box of whole numbers
    that holds it. NaN, a minimum above its maximum and what lies outside of the grid are a ValueError.

    >>> degrees = Grid(10_000_000)
    >>> degrees.box((13.4050000, 52.52, 13.40500001, 52.52))
    (134050000, 525200000, 134050001, 525200000)
    >>> degrees.floats((134050000, 525200000)), degrees.point((13.40500001, 52.52))
    ((13.405, 52.52), (134050000, 525200000))
    """

    __slots__ = ("scale", "origin")

    def __init__(self, scale: SupportsFloat, origin: Union[SupportsFloat, Sequence[SupportsFloat]] = 0.0) -> None:
        self.scale = float(scale)
        self.origin = (float(origin),) if isinstance(origin, SupportsFloat) else tuple(map(float, origin))
        # Far from 0 the floats are too coarse: two whole numbers would stand for one.
        if not 0 < self.scale < math.inf or not all(abs(it) * self.scale <= _FINEST for it in self.origin):
            raise ValueError("a grid's scale is above 0, and its origin at most 2^49 steps from 0")

    def box(self, coordinates: Iterable[SupportsFloat]) -> Tuple[int, ...]:
        """The least box of whole numbers that holds this one: each minimum, and then each maximum."""
        numbers = list(map(float, coordinates))
        axes = len(numbers) // 2
        self._has(axes, len(numbers) == 2 * axes)
        if not all(map(le, numbers[:axes], numbers[axes:])):
            raise ValueError("on some axis min is above max, or no number")
        return tuple([self.column([x], k, k >= axes)[0] for k, x in enumerate(numbers)])

    def point(self, coordinates: Iterable[SupportsFloat]) -> Tuple[int, ...]:
        """The nearest point of whole numbers."""
        numbers = list(map(float, coordinates))
        self._has(len(numbers), True)
        return tuple([self.nearest([x], k)[0] for k, x in enumerate(numbers)])

    def floats(self, numbers: Sequence[int]) -> Tuple[float, ...]:
        """The floats of a point or a box of whole numbers."""
        return tuple([self._from(k) + n / self.scale for k, n in enumerate(numbers)])

    def _from(self, place: int) -> float:
        """Where the axis begins that the number at this place of a point or a box is on."""
        return self.origin[place % len(self.origin)]

    def _has(self, axes: int, fits: bool) -> None:
        if not fits or len(self.origin) not in (1, axes):
            raise ValueError("a number of coordinates that the grid doesn't have")

    def column(self, values: Sequence[float], place: int, up: bool) -> "array.array[int]":
        """The whole numbers that are nearest below these values, or, if `up`, above, all on the axis of that place."""
        origin, numpy = self._from(place), numpy_for(len(values))
        if numpy is not None:
            with numpy.errstate(all="ignore"):
                column = numpy.asarray(values, float)
                below = _below_by(numpy, *((-column, -origin) if up else (column, origin)), self.scale)
                return _whole_by(numpy, -below if up else below)
        if up:
            return _whole(map(neg, self._below([-x for x in values], -origin)))
        return _whole(self._below(values, origin))

    def nearest(self, values: Sequence[float], place: int) -> "array.array[int]":
        """The whole numbers nearest to these values, all on the axis of that place."""
        origin, numpy = self._from(place), numpy_for(len(values))
        if numpy is not None:
            with numpy.errstate(all="ignore"):
                return _whole_by(numpy, numpy.floor((numpy.asarray(values, float) - origin) * self.scale + 0.5))
        steps = map(mul, map(sub, values, repeat(origin)), repeat(self.scale))
        return _whole(map(math.floor, map(add, steps, repeat(0.5))))

    def back(self, numbers: Sequence[int], place: int) -> "array.array[float]":
        """The floats of these whole numbers, all on the axis of that place."""
        origin, numpy = self._from(place), numpy_for(len(numbers))
        if numpy is not None:
            with numpy.errstate(all="ignore"):
                return array.array("d", (origin + numpy.asarray(numbers) / self.scale).tobytes())
        return array.array("d", map(add, repeat(origin), map(truediv, numbers, repeat(self.scale))))

    def _below(self, values: Sequence[float], origin: float) -> Iterable[int]:
        # By floats alone the whole number may be off by one, which the floats of it and of the next one show.
        start, scale = repeat(origin), repeat(self.scale)
        try:
            near = list(map(math.floor, map(mul, map(sub, values, start), scale)))
        except (ValueError, OverflowError):  # NaN, and infinity
            raise ValueError(_OUTSIDE) from None
        own = map(add, start, map(truediv, near, scale))
        above = map(add, start, map(truediv, map(add, near, repeat(1)), scale))
        return map(sub, map(add, near, map(le, above, values)), map(gt, own, values))

    def __eq__(self, other: object) -> bool:
        return isinstance(other, Grid) and (self.scale, self.origin) == (other.scale, other.origin)

    def __hash__(self) -> int:
        return hash((self.scale, self.origin))

    def __repr__(self) -> str:
        return f"Grid({self.scale!r}, {self.origin!r})"


_OUTSIDE = "a coordinate is no number, or lies outside of the grid"


def _whole(numbers: Iterable[int]) -> "array.array[int]":
    try:
        return array.array("i", numbers)
    except (ValueError, OverflowError):
        raise ValueError(_OUTSIDE) from None


def _below_by(numpy: Any, values: Any, origin: float, scale: float) -> Any:
    """As Grid._below, on a column at once."""
    near = numpy.floor((values - origin) * scale)
    return near + (origin + (near + 1) / scale <= values) - (origin + near / scale > values)


def _whole_by(numpy: Any, numbers: Any) -> "array.array[int]":
    if not ((numbers >= _LEAST) & (numbers <= _GREATEST)).all():  # nor NaN
        raise ValueError(_OUTSIDE)
    return array.array("i", numbers.astype("i").tobytes())

"""Lists of ids, boxes and points as the library takes them: of buffers, such as NumPy's arrays, or of iterables."""

from __future__ import annotations

import array
import sys
from itertools import chain
from typing import Any, Iterable

_WORDS = {"q": "whole numbers of 64 bits", "i": "whole numbers of 32 bits", "d": "numbers"}
_TAKEN = {"q": "bBhHiIlLqQ", "i": "bBhHiIlLqQ", "d": "bBhHiIlLqQfd"}
_NATIVE = "@=<" if sys.byteorder == "little" else "@=>"


def array_of(values: Any, code: str, name: str, width: int = 1) -> "array.array[Any]":
    """The numbers of a buffer, or of an iterable, which has `width` numbers an item."""
    try:
        view = memoryview(values)
    except TypeError:
        return _of_items(values, code, name, width)
    form = view.format.lstrip(_NATIVE)
    if view.ndim > 2 or (view.ndim == 2 and (view.shape or (0, 0))[1] != width):
        raise ValueError(f"{name} have {width} numbers each, not the shape {view.shape}")
    if len(form) != 1 or form not in _TAKEN[code]:
        raise ValueError(f"{name} are {_WORDS[code]}, not a buffer of format {view.format!r}")
    # The bytes are copied only where they can't be viewed.
    is_viewed = form == view.format and view.c_contiguous and view.nbytes > 0
    numbers, data = array.array(code), view.cast("B") if is_viewed else view.tobytes()
    if array.array(form).itemsize == numbers.itemsize and (form in "fd") == (code == "d") and form.islower():
        numbers.frombytes(data)
        return numbers
    numpy = numpy_for(len(data))
    try:
        if numpy is None:
            numbers.extend(memoryview(data).cast(form))
        else:
            wide = numpy.frombuffer(data, form)
            narrow = wide.astype(code)
            if code != "d" and not (narrow == wide).all():
                raise OverflowError
            numbers.frombytes(narrow.tobytes())
    except OverflowError:
        raise ValueError(f"{name} are {_WORDS[code]}") from None
    return numbers


def _of_items(values: Iterable[Any], code: str, name: str, width: int) -> "array.array[Any]":
    try:
        items = list(values)
        if width == 1 and (not items or not hasattr(items[0], "__len__")):
            return array.array(code, items)
        if set(map(len, items)) - {width}:
            raise ValueError(f"{name} have {width} numbers each")
        return array.array(code, chain.from_iterable(items))
    except (TypeError, OverflowError):
        raise ValueError(f"{name} are {_WORDS[code]}") from None


def numpy_for(length: int) -> Any:
    """NumPy, if the program uses it and there are many numbers. It answers what Python does number by number."""
    return sys.modules.get("numpy") if length >= 100 else None


def zeros(code: str, length: int) -> "array.array[int]":
    """An array of that many zeros; its memory isn't NULL."""
    numbers = array.array(code, [0])
    return numbers * length if length else numbers[:0]


def at(numbers: "array.array[Any]") -> int:
    """Where the numbers stand; no call takes NULL, not even for none."""
    return numbers.buffer_info()[0] or _SOMEWHERE.buffer_info()[0]


_SOMEWHERE = array.array("q", [0])

"""What the calls of the library and the statements of a script are refused with."""

import ctypes
from typing import Dict, Optional, Type

from ._calls import words_of

OK, BAD_BOX, ID_TAKEN, ID_MISSING, BUFFER_TOO_SMALL, OUT_OF_MEMORY = 0, 5, 6, 7, 8, 9
BAD_LENGTH, EMPTY = 14, 17


# Pickling and copying call an exception's class with its `args`, so these are what the class takes.
class JuicedeltaError(Exception):
    """A call that was refused: its `code` in juicedelta.h, and the library's words.

    Where many rows were given, `at` is the place, from 0, of the first that is refused so.
    """

    def __init__(self, code: int, at: Optional[int] = None) -> None:
        super().__init__(code) if at is None else super().__init__(code, at)
        self.code = code
        self.at = at

    def __str__(self) -> str:
        return words_of(self.code) + ("" if self.at is None else f", at place {self.at}")


class MissingId(JuicedeltaError, KeyError):
    """No row has the id."""


class BadValue(JuicedeltaError, ValueError):
    """A box, an id, a text or an option isn't one that the call takes."""


class NoMemory(JuicedeltaError, MemoryError):
    """No memory is left."""


_KINDS: Dict[int, Type[JuicedeltaError]] = {ID_MISSING: MissingId, OUT_OF_MEMORY: NoMemory}
_KINDS.update(dict.fromkeys((4, BAD_BOX, ID_TAKEN, 13, BAD_LENGTH, 15, 16, 18), BadValue))


class StatementRefused(Exception):
    """A statement that was refused: which one of the script, from 1 on, the number of the refusal, and its words."""

    def __init__(self, statement: int, number: int, words: str) -> None:
        super().__init__(statement, number, words)
        self.statement = statement
        self.number = number
        self.words = words

    def __str__(self) -> str:
        return self.words


def error_of(code: int, at: Optional[int] = None) -> JuicedeltaError:
    """The error of that code."""
    return _KINDS.get(code, JuicedeltaError)(code, at)


def error_at(code: int, place: Optional[ctypes.c_uint64]) -> JuicedeltaError:
    """The error of that code, with the place of the row if it is one of those that tell it."""
    return error_of(code, place.value if place is not None and code in (BAD_BOX, ID_TAKEN) else None)


def accept(code: int) -> None:
    """Raises the error of that code, if it is one."""
    if code:
        raise error_of(code)

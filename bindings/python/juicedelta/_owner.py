"""What owns a handle, and the order of the calls on it."""

from __future__ import annotations

import ctypes
import operator
import secrets
import threading
from threading import get_ident
from typing import Any, List, Optional, SupportsIndex, TypeVar

from ._calls import Call, Handle, close
from ._errors import error_at

T = TypeVar("T", bound="Owner")


class Guard:
    """Orders the calls on a handle: those that read go side by side, and one that writes goes alone.

    A thread that will read first puts its number into `reads`, and then looks into `writes`; one that will write puts
    it there, and then looks into `reads`. So of two at least one sees the other: a read makes room for a write, and a
    write waits for reads. Writes hold the interpreter's lock, so none is inside of another. With one thread nothing is
    waited for.

    A handler of signals may make calls in the middle of one of its thread, which then isn't in the library. So no call
    waits for its own thread, whose number may stand there twice.
    """

    __slots__ = ("reads", "writes", "waiting", "_changed")

    def __init__(self) -> None:
        self.reads: List[int] = []
        self.writes: List[int] = []
        self.waiting: List[int] = []
        self._changed = threading.Condition()

    def read(self, call: Call, *words: object) -> int:
        """What a call answers that reads."""
        me = get_ident()
        try:
            self.reads.append(me)
            if self.writes:
                self.wait_for_writes(me)
            return call(*words)
        finally:
            self.reads.remove(me)
            if self.writes:
                self.tell()

    def write(self, call: Call, *words: object) -> int:
        """What a call answers that writes."""
        me = get_ident()
        try:
            self.writes.append(me)
            if self.reads:
                self.wait_for_reads(me)
            return call(*words)
        finally:
            self.writes.remove(me)
            if self.waiting:
                self.tell()

    def wait_for_reads(self, me: int) -> None:
        """Waits until no other thread reads."""
        self._wait_for(self.reads, me)

    def wait_for_writes(self, me: int) -> None:
        """Makes room for the writes of other threads, and comes back."""
        while _has_other(self.writes, me):
            calls = self.reads.count(me)
            for _ in range(calls):
                self.reads.remove(me)
            try:
                self.waiting.append(me)
                self.tell()
                self._wait_for(self.writes, me)
            finally:
                self.waiting.remove(me)
                self.reads.extend([me] * calls)

    def _wait_for(self, threads: List[int], me: int) -> None:
        # A call that is interrupted may tell nothing.
        with self._changed:
            while _has_other(threads, me):
                self._changed.wait(0.1)

    def tell(self) -> None:
        """Tells those that wait that a thread has left."""
        with self._changed:
            self._changed.notify_all()


def _has_other(threads: List[int], me: int) -> bool:
    return any(it != me for it in tuple(threads))


class Owner:
    """A handle, and what it holds."""

    _at: Any = None

    def _hold(self, opening: Call, *words: object, place: Optional[ctypes.c_uint64] = None) -> None:
        """Opens an object by that call. Then, not if it is refused, it frees what was held before.

        A call for many rows writes the place of one that is refused.
        """
        at, behind = ctypes.byref(Handle()), () if place is None else (ctypes.byref(place),)
        code = opening(at, *words, secrets.randbits(64), secrets.randbits(64), *behind)
        if code:
            raise error_at(code, place)
        self.close()
        self._at = at

    def close(self) -> None:
        """Frees what is held. Closing twice does nothing."""
        if self._at is not None:
            close(self._at)

    def __del__(self) -> None:
        self.close()

    def __enter__(self: T) -> T:
        return self

    def __exit__(self, *_: object) -> None:
        self.close()

    def __reduce_ex__(self, protocol: SupportsIndex) -> Any:
        # Of two objects with one handle, the first to go would close the other.
        raise TypeError(f"{type(self).__name__} objects can't be copied or pickled: each owns what the library holds for it")


def whole(number: SupportsIndex, name: str) -> int:
    """A parameter of that name, or an error unless it is a whole number; True and False are none here."""
    if isinstance(number, bool) or not hasattr(number, "__index__"):
        raise ValueError(f"{name} is a whole number, not {number!r}")
    return operator.index(number)


def capacity_of(number: SupportsIndex) -> int:
    """The capacity. One without 32 bits is refused as the nearest that has them: ctypes would cut it off."""
    return min(max(whole(number, "capacity"), 0), 2**32 - 1)

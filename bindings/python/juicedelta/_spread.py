"""Many windows or points shared by several threads: the library lets go of the interpreter while it reads."""

from __future__ import annotations

import array
import ctypes
import mmap
import os
import sys
from concurrent.futures import ThreadPoolExecutor
from typing import Callable, Iterator, List, NamedTuple, SupportsIndex, Tuple, TypeVar, Union

from ._buffers import at, zeros
from ._owner import whole

_LEAST = 1000  # A thread with fewer windows takes longer to begin than to search.
_SHARES = 4  # For each thread: a later share uses the buffer of an earlier one again, and a slow thread takes fewer.
_SAMPLE, _STEP = 128, 64  # A sample has about as many windows as that, and at most one in a step.
T = TypeVar("T")


class Buffer:
    """Room for ids. If threads share the windows, its pages come into being as the threads write to them."""

    def __init__(self, room: int, is_shared: bool) -> None:
        self.room = room
        self.numbers: Union[array.array[int], mmap.mmap]
        if is_shared:
            try:
                self.numbers = mmap.mmap(-1, max(8 * room, 1), flags=mmap.MAP_PRIVATE | mmap.MAP_ANONYMOUS)
            except (OSError, OverflowError):
                raise MemoryError from None
            self.at = ctypes.addressof(ctypes.c_char.from_buffer(self.numbers))
        else:
            self.numbers = zeros("q", room)
            self.at = at(self.numbers)

    def ids(self, total: int) -> array.array[int]:
        """The ids with which it begins: a copy, unless no other share can need the buffer."""
        if isinstance(self.numbers, array.array):
            del self.numbers[total:]
            return self.numbers
        ids = array.array("q")
        ids.frombytes(memoryview(self.numbers)[: ids.itemsize * total])
        return ids


class Many(NamedTuple):
    """What many windows or points find: the ids of place i are `ids[starts[i] : starts[i + 1]]`."""

    ids: array.array[int]
    starts: array.array[int]


class Share(NamedTuple):
    """Some of the numbers of a list."""

    numbers: array.array[int]
    begin: int
    length: int

    def words(self) -> Tuple[int, int]:
        """The share as a call takes it: where it stands, and its length."""
        return at(self.numbers) + self.numbers.itemsize * self.begin, self.length


class Found(NamedTuple):
    """What the windows or points of a share find: a buffer that begins with `total` ids, and where those of each begin."""

    buffer: Buffer
    total: int
    starts: array.array[int]


def threads_for(workers: SupportsIndex) -> int:
    """How many threads `workers` stands for."""
    threads = whole(workers, "workers")
    if threads == -1:
        return len(os.sched_getaffinity(0)) if hasattr(os, "sched_getaffinity") else os.cpu_count() or 1
    if threads < 1:
        raise ValueError("workers is 1 or more, or -1")
    return threads


def shares_of(numbers: array.array[int], width: int, threads: int) -> List[Share]:
    """The numbers, of which `width` belong together, in shares for the threads: one, or several for each."""
    length, shares = len(numbers), _SHARES * threads if threads > 1 else 1
    size = max(-(-length // (width * shares)), _LEAST) * width
    return [Share(numbers, begin, min(size, length - begin)) for begin in range(0, max(length, 1), size)]


def sample_of(numbers: array.array[int], width: int) -> array.array[int]:
    """The numbers of a sample of the windows, spread over the list. It is empty if there are too few of them to need one."""
    sample, step = numbers[:0], max(len(numbers) // (width * _SAMPLE), _STEP) * width
    if len(numbers) >= _LEAST * width:
        for begin in range(0, len(numbers) - width + 1, step):
            sample.extend(numbers[begin : begin + width])
    return sample


def side_by_side(ask: Callable[[Share], T], shares: List[Share], threads: int) -> Iterator[T]:
    """The answers for the shares, in their order. A thread that is done with a share takes the next."""
    if len(shares) == 1:
        yield ask(shares[0])
        return
    with ThreadPoolExecutor(min(threads, len(shares))) as pool:
        yield from pool.map(ask, shares)


def buffer_of(spare: List[Buffer], room: int, is_shared: bool) -> Buffer:
    """A buffer that an earlier share no longer needs, since new pages cost time; else a new one with that much room."""
    try:
        return spare.pop()
    except IndexError:
        return Buffer(room, is_shared)


def joined(answers: Iterator[Found], spare: List[Buffer]) -> Many:
    """The answers as one. They are joined while threads search on, and their buffers become spare."""
    first = next(answers)
    ids, starts = first.buffer.ids(first.total), first.starts
    spare.append(first.buffer)
    for found in answers:
        starts.extend(_raised(found.starts, len(ids)))
        ids.frombytes(memoryview(found.buffer.numbers).cast("B")[: ids.itemsize * found.total])
        spare.append(found.buffer)
    starts.append(len(ids))
    return Many(ids, starts)


def _raised(numbers: array.array[int], by: int) -> array.array[int]:
    """Each number and `by`. All are added at once, as digits of 64 bits: no sum carries into the next digit."""
    ones = array.array("q", [1]) * len(numbers)
    sums = int.from_bytes(numbers, sys.byteorder) + by * int.from_bytes(ones, sys.byteorder)
    return array.array("q", sums.to_bytes(8 * len(numbers), sys.byteorder))

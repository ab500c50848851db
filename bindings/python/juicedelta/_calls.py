"""The calls of the library.

Those that write hold the interpreter's lock. Those that read rows let go of it, so that threads can read side by side.
"""

from __future__ import annotations

import ctypes
import os
from pathlib import Path
from typing import Any, Callable, Tuple

from . import __version__

Call = Callable[..., int]


class Handle(ctypes.Structure):
    """All zeros hold nothing."""

    _fields_ = [("object", ctypes.c_void_p), ("count", ctypes.c_uint64)]


def _load() -> Tuple[ctypes.PyDLL, ctypes.CDLL]:
    # A wheel has the library beside this file. Three folders up is the checkout, or, installed, the folder of libraries.
    own, above = Path(__file__).resolve().parent, Path(__file__).resolve().parents[3]
    files = [folder / "libjuicedelta.so" for folder in (own, above / "lib", above)]
    file = os.environ.get("JUICEDELTA_LIBRARY") or next((str(it) for it in files if it.exists()), "libjuicedelta.so")
    try:
        library, reading = ctypes.PyDLL(file), ctypes.CDLL(file)
        version = 0
        for part in __version__.split("."):
            version = 1000 * version + int(part)
        if library.juicedelta_version() != version:
            raise OSError(f"{file} is a library of another version than {__version__}")
        return library, reading
    except OSError as error:
        raise ImportError(f"{error}: `make bindings` builds lib/libjuicedelta.so, or JUICEDELTA_LIBRARY names it") from error


library, _reading_library = _load()
_POINTER, _SIZE, _WORD, _NUMBER, _ID = ctypes.c_void_p, ctypes.c_size_t, ctypes.c_uint64, ctypes.c_uint32, ctypes.c_int64
# A box, a point or a text that is read, and its length; a list that is read; and what is written.
_GIVEN, _LIST, _WRITTEN = (ctypes.c_char_p, _SIZE), (_POINTER, _SIZE), (_POINTER, _SIZE)


def _declared(call: Any, *words: Any) -> Call:
    call.argtypes = words
    return call  # type: ignore[no-any-return]


def _writes(name: str, *words: Any) -> Call:
    return _declared(getattr(library, "juicedelta_" + name), _POINTER, *words)


def _reads(name: str, *words: Any) -> Call:
    return _declared(getattr(_reading_library, "juicedelta_" + name), _POINTER, *words)


close = _writes("close")

tree_open = _writes("tree_open", _NUMBER, _NUMBER, _WORD, _WORD)
tree_open_dump = _writes("tree_open_dump", _NUMBER, *_GIVEN, _WORD, _WORD)
tree_open_rows = _writes("tree_open_rows", _NUMBER, _NUMBER, *_LIST, *_LIST, _WORD, _WORD, _POINTER)
tree_open_bytes = _writes("tree_open_bytes", _NUMBER, *_GIVEN, _WORD, _WORD)
tree_insert = _writes("tree_insert", _ID, *_GIVEN)
tree_move = _writes("tree_move", _ID, *_GIVEN)
tree_insert_rows = _writes("tree_insert_rows", *_LIST, *_LIST, _POINTER)
tree_remove = _writes("tree_remove", _ID)
tree_clear = _writes("tree_clear")

tree_len = _reads("tree_len", _POINTER)
tree_get = _reads("tree_get", _ID, *_WRITTEN)
tree_count = _reads("tree_count", _NUMBER, *_GIVEN, _POINTER)
tree_search = _reads("tree_search", _NUMBER, *_GIVEN, *_WRITTEN, _POINTER)
tree_search_rows = _reads("tree_search_rows", _NUMBER, *_GIVEN, *_WRITTEN, *_WRITTEN, _POINTER)
tree_nearest = _reads("tree_nearest", *_GIVEN, *_WRITTEN, *_WRITTEN, _POINTER)
tree_nearest_to = _reads("tree_nearest_to", *_GIVEN, *_WRITTEN, *_WRITTEN, _POINTER)
tree_within = _reads("tree_within", *_GIVEN, _WORD, *_WRITTEN, *_WRITTEN, _POINTER)
tree_bounds = _reads("tree_bounds", *_WRITTEN)
tree_ids = _reads("tree_ids", _WORD, *_WRITTEN, _POINTER)
tree_rows = _reads("tree_rows", _WORD, *_WRITTEN, *_WRITTEN, _POINTER)
tree_join = _reads("tree_join", _POINTER, *_WRITTEN, *_WRITTEN, _POINTER)
tree_join_self = _reads("tree_join_self", *_WRITTEN, *_WRITTEN, _POINTER)
tree_search_many = _reads("tree_search_many", _NUMBER, *_LIST, *_WRITTEN, *_WRITTEN, _POINTER)
tree_count_many = _reads("tree_count_many", _NUMBER, *_LIST, *_WRITTEN)
tree_nearest_many = _reads("tree_nearest_many", *_LIST, _WORD, *_WRITTEN, *_WRITTEN, _POINTER)
tree_dump = _reads("tree_dump", *_WRITTEN, _POINTER)
tree_to_bytes = _reads("tree_to_bytes", *_WRITTEN, _POINTER)

live_open = _writes("live_open", _NUMBER, _NUMBER, _WORD, _WORD)
live_insert = _writes("live_insert", _ID, *_GIVEN, _POINTER)
live_move = _writes("live_move", _ID, *_GIVEN, _POINTER)
live_remove = _writes("live_remove", _ID, _POINTER)
live_watch = _writes("live_watch", _ID, *_GIVEN, _POINTER)
live_shift = _writes("live_shift", _ID, *_GIVEN, _POINTER)
live_unwatch = _writes("live_unwatch", _ID, _POINTER)
live_reserve = _writes("live_reserve", _WORD, _WORD, _WORD)
# It follows each edit, and is short.
live_changes = _writes("live_changes", *_WRITTEN, *_WRITTEN, *_WRITTEN, _POINTER)
live_rows = _reads("live_rows", _ID, *_WRITTEN, _POINTER)
live_windows = _reads("live_windows", _WORD, *_WRITTEN, *_WRITTEN, _POINTER)

script_open = _writes("script_open", _NUMBER, _WORD, _WORD)
script_exec = _writes("script_exec", *_GIVEN)
script_finish = _writes("script_finish", _POINTER)
script_drop_output = _writes("script_drop_output")
# A shell is used by one thread at a time, and these two are short.
script_output_length = _writes("script_output_length", _POINTER)
script_output = _writes("script_output", *_WRITTEN)

_words = _declared(library.juicedelta_words, ctypes.c_int32, *_WRITTEN, _POINTER)


def words_of(code: int) -> str:
    """What the library says of a code."""
    text, total = ctypes.create_string_buffer(128), ctypes.c_uint64()
    _words(code, text, len(text), ctypes.byref(total))
    return text.raw[: total.value].decode()

"""The text of scripts and what a shell prints, by the grammar of docs/SQL.md."""

from __future__ import annotations

import re
from typing import List, NamedTuple, Optional, Tuple, Union

from ._errors import StatementRefused

Value = Union[None, int, str, bytes]


class Change(NamedTuple):
    """A row that came into a view, if the sign is +, or left it, if it is -."""

    view: str
    sign: str
    row: Tuple[Value, ...]


_WHITE = r"[\t\n\f\r ;]"
_COMMENT = r"--[^\n]*\n|/\*[^*]*\*+(?:[^*/][^*]*\*+)*/"
_GAP = rf"{_WHITE}*(?:(?:{_COMMENT}){_WHITE}*)*"
_PLAIN = r"[^;'\"/-]*"
# A statement up to its `;`, or up to a quote or a comment without an end. Each text is matched in one way, so that
# the time is linear.
_STATEMENT = rf"(?!{_WHITE}|\.|--|/\*){_PLAIN}(?:(?:'[^']*'|\"[^\"]*\"|{_COMMENT}|-(?=[^-])|/(?=[^*])){_PLAIN})*"
_BEGUN = re.compile(_STATEMENT)
_WHOLE = re.compile(rf"(?:{_GAP}(?:\.[^\n]*\n|{_STATEMENT};))*{_GAP}")
_CHUNK = 1 << 15  # A match keeps a note of each quote and comment, so long texts are read in parts.

# What ends the piece or the comment that stops so. A quote and a `/*` comment have no end that could be guessed.
_ENDS = {"": "", "--": "\n", ".": "\n", "-": ";", "/": ";", "x": ";", "x-": ";", "x/": ";", "x--": "\n;"}


def begun_by(text: str) -> str:
    """A short text that stops where this one does: in the same quote, comment, line or statement, or, empty, in none."""
    begun = ""
    for at in range(0, len(text), _CHUNK):
        begun = _begun_by(begun + text[at : at + _CHUNK])
    return begun


def _begun_by(text: str) -> str:
    whole = _WHOLE.match(text)
    tail = text[whole.end() :] if whole else text
    if not tail:
        return ""
    statement = _BEGUN.match(tail)
    end = statement.end() if statement else 0
    # Now a quote, a comment or a dot line without an end, the first half of what begins a comment, or nothing.
    rest, begun = tail[end:], "x" if end else ""
    if rest.startswith("/*"):
        return begun + ("/**" if rest[2:].endswith("*") else "/*")
    return begun + ("--" if rest.startswith("--") else rest[:1])


def ended(begun: str, text: str) -> str:
    """The text, with what makes whole pieces of it if `begun` was fed before."""
    if begun not in ("", "--"):
        raise ValueError("a statement or comment that was fed before has no end yet: feed it by execute")
    end = _ENDS.get(begun_by(text))
    if end is None:
        raise ValueError("whole statements are due, and a quote or a comment has no end here")
    return _ENDS[begun] + text + end


# A line, read backwards from its line feed. A row has blanks and line feeds in quotes only. So the last blank outside of
# quotes stands behind other words, among them the name of a view, which may have blanks and quotes but no line feed.
_BACKWARDS = re.compile(r"\n([^' \n]*(?:'[^']*'[^' \n]*)*)(?: ([^\n]*))?")


def lines_of(printed: str) -> List[str]:
    """The lines. A text in quotes may have line feeds, which end none."""
    if "'" not in printed or not any("\n" in text for text in printed.split("'")[1::2]):
        return printed.split("\n")[:-1]
    return [f"{words} {row}" if words else row for words, row in _cut(printed)]


def _cut(printed: str) -> List[Tuple[str, str]]:
    """Each line as the words before its last blank outside of quotes, and what stands behind it."""
    found = _BACKWARDS.findall(printed[::-1])
    return [(words[::-1], row[::-1]) for row, words in reversed(found)]


def refusal_of(printed: str) -> Optional[StatementRefused]:
    """The first refusal that is printed."""
    if "refused " in printed:
        for line in lines_of(printed):
            found = re.fullmatch(r"refused (\d+) (\d+): (.*)", line)
            if found:
                return StatementRefused(int(found.group(1)), int(found.group(2)), found.group(3))
    return None


def changes_of(printed: str) -> List[Change]:
    """The changes among what is printed."""
    found = [(words, row) for words, row in _cut(printed) if words[:1] in ("+", "-")]
    rows = rows_of("".join([row + "\n" for _, row in found]))
    return [Change(words[1:], words[0], row) for (words, _), row in zip(found, rows)]


_TEXT = re.compile(r"'([^']*(?:''[^']*)*)'")
_NO_DIGITS = {ord(glyph): None for glyph in "-0123456789"}
_FEW = 16  # So many lines are read sooner than compared.
_BLOCK = 256


def rows_of(printed: str) -> List[Tuple[Value, ...]]:
    """The rows if nothing else is printed; else a ValueError."""
    # The texts, and what stands outside of them, where a byte 0, which no shell prints, marks each.
    parts = _TEXT.split(printed)
    texts, outside = parts[1::2], "T\0".join(parts[::2])
    # No row has a blank there; a change has one behind the view's name, a refusal between its words.
    if " " in outside:
        raise ValueError(outside)
    if "''" in printed:
        texts = [text.replace("''", "'") for text in texts]
    lines = outside.split("\n")[:-1]
    if len(lines) > _FEW:
        forms = outside.translate(_NO_DIGITS)
        form = forms[: forms.find("\n") + 1]
        if forms == form * len(lines) and not form.strip("|T\0\n"):
            return _rows_alike(lines, form.split("|"), texts)
    return _rows_unlike(lines, texts)


def _rows_alike(lines: List[str], cells: List[str], texts: List[str]) -> List[Tuple[Value, ...]]:
    """The rows of lines with texts in the columns where these cells have them, and integers in all others."""
    rows: List[Tuple[Value, ...]] = []
    columns = len(texts) // len(lines)
    # No value takes a step of the interpreter, and what is made of a block of lines on the way stays in the cache.
    for at in range(0, len(lines), _BLOCK):
        integers = map(int, filter(None, "|".join(lines[at : at + _BLOCK]).replace("T\0", "").split("|")))
        quoted = iter(texts[at * columns : (at + _BLOCK) * columns])
        rows += zip(*[quoted if "T" in cell else integers for cell in cells])
    return rows


def _rows_unlike(lines: List[str], texts: List[str]) -> List[Tuple[Value, ...]]:
    left = iter(texts)

    def value(cell: str) -> Value:
        if cell == "NULL":
            return None
        if cell == "XT\0":
            return bytes.fromhex(next(left))
        raise ValueError(cell)

    # Only integers come before `:`.
    return [
        tuple([int(cell) if cell < ":" else next(left) if cell == "T\0" else value(cell) for cell in line.split("|")])
        for line in lines
    ]

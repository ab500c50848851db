"""Tables of SQLite: rtree_i32 tables as rows and as scripts, and rows as rtree_i32 tables.

It needs neither the library nor the rest of the package: scripts/from_sqlite and scripts/to_sqlite load it alone.
"""

from __future__ import annotations

import argparse
import math
import re
import signal
import sqlite3
import struct
import sys
from contextlib import contextmanager
from itertools import chain
from operator import add, methodcaller
from typing import Any, Iterable, Iterator, List, NamedTuple, Optional, Sequence, Set, Tuple
from urllib.parse import quote

Row = Tuple[Any, ...]
_PART = 10_000
_QUOTED = r"\"(?:[^\"]|\"\")*\"|'(?:[^']|'')*'|`(?:[^`]|``)*`|\[[^\]]*\]"
_NAME = rf"(?:{_QUOTED}|[^\s\"'`\[(]+)"
_CREATED = re.compile(
    rf"\s*CREATE\s+VIRTUAL\s+TABLE\s+(?:IF\s+NOT\s+EXISTS\s+)?{_NAME}\s+USING\s+(\w+)\s*\((.*)\)[\s;]*", re.I | re.S
)
_ARGUMENT = re.compile(rf"(?:{_QUOTED}|\((?:[^()]|\([^()]*\))*\)|[^,])+")


class Table(NamedTuple):
    """An rtree_i32 table: the names of its columns, of which those behind the id and the coordinates are auxiliary."""

    name: str
    columns: List[str]
    axes: int

    @property
    def auxiliary(self) -> List[str]:
        return self.columns[1 + 2 * self.axes :]


def quoted(name: str) -> str:
    """A name as SQL has it."""
    return '"' + name.replace('"', '""') + '"'


def find(connection: sqlite3.Connection, name: str) -> Optional[Table]:
    """The table of that name, or None. One that isn't of rtree_i32, or has too many axes, is a ValueError."""
    select = "SELECT name, sql FROM sqlite_master WHERE type = 'table' AND name = ? COLLATE NOCASE"
    found = _cursor(connection).execute(select, (name,)).fetchone()
    if found is None:
        return None
    created = _CREATED.fullmatch(found[1] or "")
    if created is None or created[1].lower() != "rtree_i32":
        kind = f"of {created[1]}" if created else "no virtual table"
        raise ValueError(f"table {name} is {kind}; rtree_i32 is due")
    columns = [row[1] for row in _cursor(connection).execute(f"PRAGMA table_info({quoted(found[0])})")]
    plain = [it for it in _ARGUMENT.findall(created[2]) if not it.lstrip().startswith("+")]
    axes = (len(plain) - 1) // 2
    if not 1 <= axes <= 3:
        raise ValueError(f"table {name} has {axes} axes; one, two or three are due")
    return Table(found[0], columns, axes)


def table_of(connection: sqlite3.Connection, name: str) -> Table:
    """The table of that name. That there is none, or another kind, is a ValueError."""
    table = find(connection, name)
    if table is None:
        raise ValueError(f"there is no table {name}")
    return table


def parts_of(connection: sqlite3.Connection, table: Table, columns: Iterable[str]) -> Iterator[List[Row]]:
    """These expressions of all rows of the table, some thousand rows at a time."""
    select = f"SELECT {', '.join(columns)} FROM {quoted(table.name)}"
    cursor = _cursor(connection).execute(select)
    return iter(lambda: cursor.fetchmany(_PART), [])


def _cursor(connection: sqlite3.Connection) -> sqlite3.Cursor:
    """A cursor that gives tuples, whatever the program's own do."""
    cursor = connection.cursor()
    cursor.row_factory = None
    return cursor


# ---- A table as a script ---------------------------------------------------------------------------------------------

_MOST = 60_000  # A statement has at most 65,536 bytes.


def script_of(connection: sqlite3.Connection, name: str, reals_as_text: bool = False) -> Iterator[str]:
    """The statements of a script that makes the table. A value that no script has is a ValueError that names its row."""
    table = table_of(connection, name)
    _refuse(connection, table, reals_as_text)
    signs = [""] * (1 + 2 * table.axes) + ["+"] * len(table.auxiliary)
    columns = ", ".join(sign + quoted(it) for sign, it in zip(signs, table.columns))
    yield f"CREATE VIRTUAL TABLE {quoted(table.name)} USING rtree_i32({columns});\n"
    head = f"INSERT INTO {quoted(table.name)} VALUES\n"
    spelled = "quote(CASE typeof({0}) WHEN 'real' THEN CAST({0} AS TEXT) ELSE {0} END)"
    quotes = [spelled.format(quoted(it)) for it in table.auxiliary]
    form = "(" + ",".join(["%d"] * (1 + 2 * table.axes) + ["%s"] * len(quotes)) + ")"
    for part in parts_of(connection, table, [*map(quoted, table.columns[: 1 + 2 * table.axes]), *quotes]):
        lines: List[str] = []
        length = 0
        for line in map(form.__mod__, part):
            length += len(line.encode()) + 2
            if length > _MOST and lines:
                yield head + ",\n".join(lines) + ";\n"
                lines, length = [], len(line.encode()) + 2
            lines.append(line)
        yield head + ",\n".join(lines) + ";\n"


def _refuse(connection: sqlite3.Connection, table: Table, reals_as_text: bool) -> None:
    """Refuses a REAL, unless it may become a text, and a text with a zero byte."""
    id = quoted(table.columns[0])
    for column in table.auxiliary:
        it = quoted(column)
        wrong = f"(typeof({it}) = 'text' AND instr(CAST({it} AS BLOB), X'00') > 0)"
        if not reals_as_text:
            wrong += f" OR typeof({it}) = 'real'"
        select = f"SELECT {id}, typeof({it}), quote({it}) FROM {quoted(table.name)} WHERE {wrong} LIMIT 1"
        found = _cursor(connection).execute(select).fetchone()
        if found and found[1] == "real":
            raise ValueError(f"row {found[0]} has the REAL {found[2]} in column {column}; a script has none")
        if found:
            raise ValueError(f"row {found[0]} has a text with a zero byte in column {column}")


# ---- Printed rows ----------------------------------------------------------------------------------------------------

_VALUE = re.compile(r"(NULL|-?[0-9]+|X'[0-9A-F]*'|'(?:[^']|'')*')([|\n])")


def columns_printed(printed: str) -> List[List[Any]]:
    """The columns of the rows that a SELECT of a script printed, none without rows. Anything else is a ValueError."""
    if "'" not in printed and "N" not in printed:
        widths = set(map(methodcaller("count", "|"), printed.splitlines()))
        try:
            numbers = list(map(int, printed[:-1].replace("\n", "|").split("|"))) if printed else []
        except ValueError as error:
            raise ValueError(f"no row: {error}") from None
        return _columns(numbers, widths)
    values: List[Any] = []
    widths, end, begun = set(), 0, 0
    for found in _VALUE.finditer(printed):
        if found.start() != end:
            break
        end = found.end()
        values.append(_value(found[1]))
        if found[2] == "\n":
            widths.add(len(values) - begun - 1)
            begun = len(values)
    if end != len(printed) or begun != len(values):
        raise ValueError("no row: " + printed[end:].split("\n")[0][:1000])
    return _columns(values, widths)


def _columns(values: List[Any], bars: Set[int]) -> List[List[Any]]:
    if len(bars) > 1:
        raise ValueError("the rows have more than one number of values")
    return [values[k :: max(bars) + 1] for k in range(max(bars) + 1)] if bars else []


def _value(text: str) -> Any:
    if text < "A" and text[0] != "'":
        return int(text)
    if text[0] == "'":
        return text[1:-1].replace("''", "'")
    return None if text == "NULL" else bytes.fromhex(text[2:-1])


# ---- Rows as a table -------------------------------------------------------------------------------------------------


@contextmanager
def all_or_nothing(connection: sqlite3.Connection) -> Iterator[None]:
    """Keeps all that is written within, or nothing if an error is raised."""
    connection.execute("SAVEPOINT juicedelta")
    try:
        yield
    except BaseException:
        connection.execute("ROLLBACK TO juicedelta")
        raise
    finally:
        connection.execute("RELEASE juicedelta")


def create(connection: sqlite3.Connection, name: str, axes: int, auxiliary: Sequence[str]) -> Table:
    """Makes a table without rows."""
    ends = [f"{end}{axis}" for axis in "xyz"[:axes] for end in ("min", "max")]
    columns = ", ".join(map(quoted, ["id", *ends]))
    more = "".join(", +" + quoted(it) for it in auxiliary)
    connection.execute(f"CREATE VIRTUAL TABLE {quoted(name)} USING rtree_i32({columns}{more})")
    return Table(name, ["id", *ends, *auxiliary], axes)


def replace_rows(connection: sqlite3.Connection, table: Table, columns: Sequence[Sequence[Any]]) -> int:
    """Puts the rows of these columns, which are the table's, in place of the table's own, and answers their number.

    They are packed, sort-tile-recursive, into the table's nodes, which takes a tenth of the time of INSERTs. The form of
    nodes is that of https://www.sqlite.org/rtree.html, in its section on shadow tables.
    """
    width = 1 + 2 * table.axes
    columns = columns or [()] * len(table.columns)
    if len(columns) != len(table.columns):
        raise ValueError(f"rows have {len(columns)} values, and table {table.name} {len(table.columns)} columns")
    _check(columns, table)
    node, rowid, parent = [quoted(table.name + it) for it in ("_node", "_rowid", "_parent")]
    room = _cursor(connection).execute(f"SELECT length(data) FROM {node} WHERE nodeno = 1").fetchone()[0]
    for shadow in (node, rowid, parent):
        connection.execute(f"DELETE FROM {shadow}")
    nodes = _Nodes(room, table.axes)
    homes = nodes.pack(columns[:width])
    marks = ", ".join("?" * (2 + len(columns) - width))
    lines: List[Row] = sorted(zip(columns[0], homes, *columns[width:]), key=lambda line: int(line[0]))
    connection.executemany(f"INSERT INTO {rowid} VALUES ({marks})", lines)
    connection.executemany(f"INSERT INTO {node} VALUES (?, ?)", nodes.data)
    connection.executemany(f"INSERT INTO {parent} VALUES (?, ?)", nodes.parents)
    return len(columns[0])


def _check(columns: Sequence[Sequence[Any]], table: Table) -> None:
    """Refuses rows that the table itself would refuse."""
    numbers = columns[: 1 + 2 * table.axes]
    if not all(map(_are_whole, numbers)):
        raise ValueError("an id or a coordinate is no whole number")
    if len(set(columns[0])) != len(columns[0]):
        raise ValueError("an id comes twice")
    for low, high in zip(numbers[1::2], numbers[2::2]):
        if low and not (-(2**31) <= min(low) and max(high) < 2**31 and all(map(int.__le__, low, high))):
            raise ValueError("a coordinate hasn't 32 bits, or a minimum is above its maximum")


def _are_whole(column: Sequence[Any]) -> bool:
    return set(map(type, column)) <= {int}


class _Nodes:
    """The nodes of a table, from its rows upwards: a blob of that many bytes each, and the parent of each but the root."""

    def __init__(self, room: int, axes: int) -> None:
        self.room, self.axes = room, axes
        self.cells = min(51, (room - 4) // (8 + 8 * axes))
        self.data: List[Tuple[int, bytes]] = []
        self.parents: List[Tuple[int, int]] = []

    def pack(self, columns: Sequence[Sequence[int]]) -> List[int]:
        """Packs the rows of these columns, ids and coordinates, and answers the node of each."""
        homes, depth, free = [1] * len(columns[0]), 0, 2
        level = columns
        while True:
            nodes = -(-len(level[0]) // self.cells)
            if nodes <= 1:
                self._write(1, depth, level)
                if depth:
                    self.parents += [(child, 1) for child in level[0]]
                return homes
            centres = [list(map(add, low, high)) for low, high in zip(level[1::2], level[2::2])]
            order = self._tiled(list(range(len(level[0]))), nodes, centres, 0)
            hulls: List[Tuple[int, ...]] = []
            for at in range(nodes):
                members = order[len(order) * at // nodes : len(order) * (at + 1) // nodes]
                cells = [list(map(column.__getitem__, members)) for column in level]
                self._write(free, 0, cells)
                ends = [(min(low), max(high)) for low, high in zip(cells[1::2], cells[2::2])]
                hulls.append((free, *chain.from_iterable(ends)))
                if depth:
                    self.parents += [(child, free) for child in cells[0]]
                else:
                    for member in members:
                        homes[member] = free
                free += 1
            level, depth = list(zip(*hulls)), depth + 1

    def _tiled(self, places: List[int], nodes: int, keys: List[List[int]], axis: int) -> List[int]:
        """The places in the order in which nodes take them, all nodes alike full: slabs, then tiles, then runs."""
        places.sort(key=keys[axis].__getitem__)
        if axis + 1 == self.axes or nodes == 1:
            return places
        slabs = math.ceil(nodes ** (1 / (self.axes - axis)))
        ends = [nodes * slab // slabs for slab in range(slabs + 1)]
        order: List[int] = []
        for begin, end in zip(ends, ends[1:]):
            if begin < end:
                part = places[len(places) * begin // nodes : len(places) * end // nodes]
                order += self._tiled(part, end - begin, keys, axis + 1)
        return order

    def _write(self, number: int, depth: int, cells: Sequence[Sequence[int]]) -> None:
        """A node's blob: the depth, of the root alone, the number of cells, and each cell's id and coordinates."""
        count = len(cells[0])
        data = struct.pack(">HH" + f"q{2 * self.axes}i" * count, depth, count, *chain.from_iterable(zip(*cells)))
        self.data.append((number, data.ljust(self.room, b"\0")))


# ---- Commands --------------------------------------------------------------------------------------------------------


def print_script() -> Optional[str]:
    """scripts/from_sqlite. It answers what is wrong."""
    parser = argparse.ArgumentParser(description="Prints a script for rtsh run that makes an rtree_i32 table of SQLite.")
    parser.add_argument("--text", action="store_true", help="a REAL value becomes a text; without this it is refused")
    parser.add_argument("file", help="an SQLite database")
    parser.add_argument("table")
    options = parser.parse_args()
    signal.signal(signal.SIGPIPE, signal.SIG_DFL)  # As other programs end whose output is closed.
    try:
        connection = sqlite3.connect(f"file:{quote(options.file)}?mode=ro", uri=True)
        for statement in script_of(connection, options.table, options.text):
            sys.stdout.buffer.write(statement.encode())
    except (sqlite3.Error, ValueError) as error:
        return f"{options.file}: {error}"
    return None


def replace_table() -> Optional[str]:
    """scripts/to_sqlite. It answers what is wrong."""
    parser = argparse.ArgumentParser(
        description="Puts the rows that a SELECT * of rtsh printed, from standard input, in place of the rows of an rtree_i32 "
        "table of SQLite. A table that is missing is made. At a line that is no row, as a refusal, nothing changes."
    )
    parser.add_argument("--auxiliary", default="", metavar="NAME,..", help="the auxiliary columns of a table that is made")
    parser.add_argument("file", help="an SQLite database")
    parser.add_argument("table")
    options = parser.parse_args()
    names = [it for it in options.auxiliary.split(",") if it]
    try:
        columns = columns_printed(sys.stdin.buffer.read().decode())
        connection = sqlite3.connect(options.file)
        with all_or_nothing(connection):
            table = find(connection, options.table)
            if table is None and columns:
                table = create(connection, options.table, (len(columns) - len(names)) // 2, names)
            if table is not None:
                replace_rows(connection, table, columns)
    except (sqlite3.Error, ValueError) as error:
        return f"{options.file}: {error}"
    return None

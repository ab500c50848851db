"""Script shells."""

from __future__ import annotations

import ctypes
import sqlite3
from typing import List, Sequence, SupportsIndex, Tuple

from ._calls import script_drop_output, script_exec, script_finish, script_open, script_output, script_output_length
from ._errors import accept
from ._owner import Owner, capacity_of
from ._script import Change, Value, begun_by, changes_of, ended, lines_of, refusal_of, rows_of
from ._sqlite import all_or_nothing, create, find, quoted, replace_rows, script_of

_SHORT = 1000  # For a text of this many characters, where it stops is computed only if that matters.


class Shell(Owner):
    """A script shell: it is fed a script in whatever parts. It can't be copied or pickled.

    >>> shell = Shell()
    >>> shell.execute("CREATE VIRTUAL TABLE t USING rtree_i32(id, a, b, +c); INSERT INTO t VALUES (1, 2, 3, 'it''s');")
    []
    >>> shell.execute("SELECT id, a FROM t;"), shell.rows("SELECT id, c FROM t")
    (['1|2'], [(1, "it's")])
    >>> shell.changes(".watch low FROM t WHERE a < 5"), shell.changes("DELETE FROM t; INSERT INTO t VALUES (2, 5, 5, NULL)")
    ([], [Change(view='low', sign='-', row=(1, 2, 3, "it's"))])
    >>> shell.execute("DELETE FROM u;"), shell.finish()
    (['refused 8 5: no such table'], [])
    """

    def __init__(self, capacity: SupportsIndex = 51) -> None:
        self._hold(script_open, capacity_of(capacity))
        # What was fed stops where this text does.
        self._begun = ""

    def execute(self, text: str) -> List[str]:
        """Feeds the shell some text, and answers the lines that it prints. A refused statement prints one too.

        A line has a line feed only in a text in quotes.
        """
        begun = self._begun + text
        return lines_of(self._fed(text, begun if len(begun) < _SHORT else begun_by(begun)))

    def rows(self, select: str) -> List[Tuple[Value, ...]]:
        """The rows of a SELECT, or of `.view NAME`: NULL is None, a blob bytes. The last `;` or line feed may be missing.

        A refused statement raises StatementRefused. A quote or a comment without its end is a ValueError, as is a
        statement without its end that `execute` was fed before; then the shell is fed nothing.
        """
        printed = self._answered(select)
        try:
            return rows_of(printed)
        except ValueError:
            raise ValueError("something else than rows is printed: " + printed[:1000]) from None

    def changes(self, text: str) -> List[Change]:
        """Feeds the shell statements, and answers how they change the views. What a SELECT prints is left out.

        Errors are those of `rows`. After StatementRefused the refused statement has changed nothing, and the others of
        the text are carried out, but their changes aren't answered: feed one at a time if that matters.
        """
        return changes_of(self._answered(text))

    def load_sqlite(self, connection: sqlite3.Connection, table: str, reals_as_text: bool = False) -> int:
        """Makes a table with the columns and rows of an rtree_i32 table, and answers the number of rows.

        A REAL value is a ValueError that names its row, or becomes a text. Other errors are those of `rows`.
        """
        for statement in script_of(connection, table, reals_as_text):
            self._answered(statement)
        found = connection.cursor().execute(f"SELECT count(*) FROM {quoted(table)}")
        return int(found.fetchone()[0])

    def save_sqlite(self, connection: sqlite3.Connection, table: str, auxiliary: Sequence[str] = ()) -> int:
        """Puts a table's rows into the rtree_i32 table of that name in place of its own, and answers their number.

        A table that is missing is made if there are rows, with these auxiliary columns.
        """
        rows = self.rows(f"SELECT * FROM {quoted(table)}")
        with all_or_nothing(connection):
            found = find(connection, table)
            if found is None and rows:
                found = create(connection, table, (len(rows[0]) - len(auxiliary)) // 2, auxiliary)
            return replace_rows(connection, found, list(zip(*rows))) if found else 0

    def finish(self) -> List[str]:
        """Ends the script, and answers the lines that its end prints: a last statement without `;` is refused."""
        accept(script_finish(self._at, ctypes.byref(ctypes.c_uint32())))
        self._begun = ""
        return lines_of(self._printed())

    def _answered(self, text: str) -> str:
        printed = self._fed(ended(self._begun and begun_by(self._begun), text), "")
        refusal = refusal_of(printed)
        if refusal:
            raise refusal
        return printed

    def _fed(self, text: str, begun: str) -> str:
        data = text.encode()
        accept(script_exec(self._at, data, len(data)))
        self._begun = begun
        return self._printed()

    def _printed(self) -> str:
        length = ctypes.c_uint64()
        accept(script_output_length(self._at, ctypes.byref(length)))
        if length.value == 0:
            return ""
        buffer = ctypes.create_string_buffer(length.value)
        accept(script_output(self._at, buffer, length.value))
        accept(script_drop_output(self._at))
        # A statement that is no UTF-8 is refused, so that all that is printed is UTF-8.
        return buffer.raw.decode()

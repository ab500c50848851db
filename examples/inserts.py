"""Turns the rows that a SELECT * of rtsh prints into INSERTs into a table, or replaces the rows of that table of an SQLite database.

    bin/rtsh run trees.sql | python3 examples/inserts.py trees > again.sql
    bin/rtsh run trees.sql | python3 examples/inserts.py trees map.db

A text may hold a `|` or a line feed, so rows are cut by the spelling of values. At what is no row, as a refusal, the program
ends, and the database stays as it was. (sqlite3's shell would read the INSERTs too, but takes carriage returns out of texts.)
"""

import re
import sys

VALUE = re.compile(r"(NULL|-?[0-9]+|X'[0-9A-F]*'|'(?:[^']|'')*')([|\n])")


def inserts(table, printed):
    values, at = [], 0
    while at < len(printed):
        value = VALUE.match(printed, at)
        if not value:
            sys.exit("no row: " + printed[at:].split("\n")[0])
        values.append(value[1])
        at = value.end()
        if value[2] == "\n":
            yield f"INSERT INTO {table} VALUES ({','.join(values)});"
            values = []


def main(table, database=None):
    statements = inserts(table, sys.stdin.buffer.read().decode())
    if database is None:
        sys.stdout.reconfigure(encoding="utf-8")
        for statement in statements:
            print(statement)
    else:
        import sqlite3

        with sqlite3.connect(database) as connection:
            connection.execute(f"DELETE FROM {table}")
            for statement in statements:
                connection.execute(statement)


if __name__ == "__main__":
    main(*sys.argv[1:])

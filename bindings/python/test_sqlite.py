"""Tests of tables of SQLite as trees and scripts, and back, beside SQLite's own answers and its own check of tables.

If Python's SQLite has no rtree_i32, a line says so.
"""

import os
import random
import sqlite3
import subprocess
import sys
import tempfile

from test import raised  # This also finds the package beside it.
from test_rows import random_rows

from juicedelta import Grid, RTree, Shell, StatementRefused


def sqlite(*statements):
    """A database in memory after these statements; or None, and a line says so, if Python's SQLite has no rtree_i32."""
    connection = sqlite3.connect(":memory:")
    try:
        connection.execute("CREATE VIRTUAL TABLE none USING rtree_i32(id, a, b)")
    except sqlite3.Error:
        print("bindings: Python's sqlite3 has no rtree_i32, so tables weren't tried")
        return None
    for statement in statements:
        connection.execute(statement)
    return connection


def test_sqlite():
    """Trees from tables of SQLite and back: SQLite's own answers, and its own check of the tables."""
    database = sqlite(
        'CREATE VIRTUAL TABLE "a ""table" USING rtree_i32("the, id" INTEGER, west, [e(ast], "+south", north, +name VARCHAR(5, 2), +"x,y")',
        "CREATE VIRTUAL TABLE reals USING rtree(id, a, b)", "CREATE TABLE plain (id, a, b)",
        "CREATE VIRTUAL TABLE four USING rtree_i32(id, a, b, c, d, e, f, g, h)", "CREATE VIEW sight AS SELECT * FROM plain",
    )
    if database is None:
        return
    wrong = {
        "reals": "is of rtree; rtree_i32 is due", "plain": "is no virtual table", "four": "has 4 axes",
        "sight": "no table sight", "no": "no table no",
    }
    for name, words in wrong.items():
        raised(ValueError, words, RTree.from_sqlite, database, name)
    empty = sqlite()
    empty.row_factory = lambda cursor, row: "none of the package's business"
    cursor = empty.cursor()
    cursor.row_factory = None
    for dimension in (1, 2, 3):
        for rows in (0, 1, 51, 52, 3000):
            plain = random_rows(dimension, rows, 90) if rows else {}
            tree = RTree.from_rows(list(plain), list(plain.values()), dimension)
            name = f"t{dimension}_{rows}"
            tree.to_sqlite(empty, name)
            assert cursor.execute(f"SELECT rtreecheck('{name}')").fetchone() == ("ok",)
            read = RTree.from_sqlite(empty, name.upper())
            assert dict(read.rows()) == plain and read.dimension == dimension
            for box in list(plain.values())[:20]:
                ids = cursor.execute(f"SELECT id FROM {name} WHERE minx <= ? AND maxx >= ?", (box[dimension], box[0])).fetchall()
                window = box[:1] + (-(2**31),) * (dimension - 1) + box[dimension : dimension + 1] + (2**31 - 1,) * (dimension - 1)
                assert sorted(tree.intersection(window)) == sorted(id for id, in ids)
            # The table goes on as any other.
            for id in list(plain)[::3]:
                empty.execute(f"DELETE FROM {name} WHERE id = ?", (id,))
            empty.execute(f"INSERT INTO {name} VALUES (20000, {', '.join(['0, 1'] * dimension)})")
            assert cursor.execute(f"SELECT rtreecheck('{name}')").fetchone() == ("ok",)
            left = {id: box for at, (id, box) in enumerate(plain.items()) if at % 3}
            assert dict(RTree.from_sqlite(empty, name).rows()) == {**left, 20000: (0,) * dimension + (1,) * dimension}
    raised(ValueError, "t1_51 has 1 axes, and the tree 2", RTree().to_sqlite, empty, "t1_51")
    values = [("it's", None), (b"\0\1", 1.5), (None, -(2**63)), ("a\nb|", "")]
    for id, pair in enumerate(values):
        database.execute('INSERT INTO "a ""table" VALUES (?, ?, ?, ?, ?, ?, ?)', (id, id, id + 1, 5, 6, *pair))
    tree = RTree.from_sqlite(database, 'A "Table', 5)
    assert {it.id: (it.bbox, it.object) for it in tree.rows()} == {id: ((id, 5, id + 1, 6), pair) for id, pair in enumerate(values)}
    assert RTree.from_sqlite(database, 'a "table', grid=Grid(2)).box(1) == (0.5, 2.5, 1, 3)
    tree.insert(9, (0, 0, 1, 1))
    tree.to_sqlite(database, "copy", ["name", "x y"])
    tree.to_sqlite(database, 'a "table')
    for name in ("copy", '"a ""table"'):
        rows = database.execute(f"SELECT * FROM {name} ORDER BY 1").fetchall()
        assert rows == [(id, id, id + 1, 5, 6, *pair) for id, pair in enumerate(values)] + [(9, 0, 1, 0, 1, None, None)]
    # All or nothing.
    tree.delete(9)
    tree.insert(9, (0, 0, 1, 1), ("one",))
    raised(ValueError, "isn't a tuple of 2 values", tree.to_sqlite, database, "copy")
    raised(ValueError, "isn't a tuple of 2 values", tree.to_sqlite, database, "new", ["a", "b"])
    assert database.execute("SELECT count(*) FROM copy").fetchone() == (5,)
    assert not database.execute("SELECT 1 FROM sqlite_master WHERE name = 'new'").fetchall()
    database.commit()
    database.execute("BEGIN")
    RTree().to_sqlite(database, "copy")
    database.rollback()
    assert database.execute("SELECT count(*) FROM copy").fetchone() == (5,)


def test_sqlite_scripts():
    """Tables through a shell, and by scripts/from_sqlite and scripts/to_sqlite."""
    database = sqlite("CREATE VIRTUAL TABLE t USING rtree_i32(id, a, b, +name, +height)", "CREATE VIRTUAL TABLE bare USING rtree_i32(id, a, b)")
    if database is None:
        return
    rows = [(1, 10, 14, "it's a|b", None), (2, -(2**31), 2**31 - 1, "two\nlines|'", -(2**63)), (3, 3, 3, b"\0'", "")]
    rows += [(id, id, id + 5, "x" * (id % 50), id) for id in range(4, 5000)]
    database.executemany("INSERT INTO t VALUES (?, ?, ?, ?, ?)", rows)
    shell = Shell()
    assert shell.load_sqlite(database, "t") == 4999 and shell.load_sqlite(database, "BARE") == 0 and shell.rows("SELECT * FROM t") == rows
    assert raised(StatementRefused, "table already exists", shell.load_sqlite, database, "t").number == 6
    shell.changes("DELETE FROM t WHERE id > 100")
    assert shell.save_sqlite(database, "t") == 100 and database.execute("SELECT * FROM t ORDER BY id").fetchall() == rows[:100]
    assert shell.save_sqlite(database, "bare") == 0 and raised(StatementRefused, "no such table", shell.save_sqlite, database, "u")
    other = sqlite3.connect(":memory:")
    assert shell.save_sqlite(other, "bare") == 0 and shell.save_sqlite(other, "t", ["name", "height"]) == 100
    assert other.execute("SELECT * FROM t ORDER BY minx, id").fetchall() == sorted(rows[:100], key=lambda row: (row[1], row[0]))
    folder = os.path.join(os.path.dirname(os.path.abspath(__file__)), "..", "..", "scripts")

    def run(name, *words, given=b""):
        command = [sys.executable, "-B", os.path.join(folder, name), *words]
        ran = subprocess.run(command, input=given, stdout=subprocess.PIPE, stderr=subprocess.PIPE)
        return ran.stdout if ran.returncode == 0 else ran.stderr.decode()

    with tempfile.TemporaryDirectory() as room:
        file, new, text = os.path.join(room, "map.db"), os.path.join(room, "new.db"), os.path.join(room, "text")
        with open(text, "w") as it:
            it.write("no database" * 100)
        with sqlite3.connect(file) as copied:
            other.backup(copied)
        again = Shell()
        again.execute(run("from_sqlite", file, "T").decode())
        assert again.rows("SELECT * FROM t") == rows[:100]
        printed = "".join(line + "\n" for line in again.execute("SELECT * FROM t;")).encode()
        assert run("to_sqlite", file, "t", given=printed) == run("to_sqlite", "--auxiliary", "a,b", new, "t", given=printed) == b""
        for it in (file, new):
            read = sqlite3.connect(it)
            assert read.execute("SELECT * FROM t ORDER BY id").fetchall() == rows[:100]
            assert read.execute("SELECT rtreecheck('t')").fetchone() == ("ok",)
        assert run("to_sqlite", file, "bare", given=b"") == b"" == run("to_sqlite", new, "bare", given=b"1|2|3\n-7|2|3\n")
        wrongs = (
            b"1|2|3|'a'|5\nrefused 1 5: no such table\n", b"1|2|x\n", b"1|2\n", b"1|2|3|'a'|5", b"1|3|2|'a'|5\n",
            b"1|2|3|NULL|5\n1|2|3|NULL|5\n", b"1|2|3|NULL|5\n2|2|3|NULL\n",
        )
        for wrong in wrongs:
            assert file in run("to_sqlite", file, "t", given=wrong)
        assert read.execute("SELECT count(*) FROM t").fetchone() == (100,)
        assert "no table u" in run("from_sqlite", file, "u") and "not a database" in run("from_sqlite", text, "t")
        assert "unable to open" in run("from_sqlite", os.path.join(room, "none.db"), "t") and not os.path.exists(os.path.join(room, "none.db"))
        with sqlite3.connect(file) as writing:
            writing.execute("UPDATE t SET height = 1.5 WHERE id = 3")
        assert "row 3 has the REAL 1.5 in column height" in run("from_sqlite", file, "t")
        assert "(3,3,3,X'0027','1.5')" in run("from_sqlite", "--text", file, "t").decode()
        raised(ValueError, "row 3 has the REAL 1.5", Shell().load_sqlite, writing, "t")
        assert again.execute("DROP TABLE t;") == [] and again.load_sqlite(writing, "t", True) == 100
        assert again.rows("SELECT height FROM t WHERE id = 3") == [("1.5",)]
        writing.execute("UPDATE t SET name = 'a' || char(0) WHERE id = 4")
        raised(ValueError, "row 4 has a text with a zero byte in column name", Shell().load_sqlite, writing, "t", True)


if __name__ == "__main__":
    random.seed(1)
    test_sqlite()
    test_sqlite_scripts()
    print("bindings/python: passed with tables of SQLite")

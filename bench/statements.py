"""The statements that scripts/bench_scripts.py times and scripts/count.py counts: boxes of two axes, spread evenly over a square."""

import random

CREATE = "CREATE VIRTUAL TABLE t USING rtree_i32(id,minX,maxX,minY,maxY);"
KINDS = {
    "few": "window of about ten rows, by id",
    "few_loose": "window of about ten rows",
    "many": "window of one row in a hundred, by id",
    "many_loose": "window of one row in a hundred",
    "all": "SELECT * of all rows",
    "ids": "SELECT id of all rows",
    "updates": "update by id",
    "deletes": "delete by id",
}


def of_ten(side):
    return int(100 * 10**0.5)


def of_a_hundredth(side):
    return side // 10


# How long the sides of a window are, and the order that its SELECT asks for. From rtsh rows come by rising id in any case; sqlite3
# sorts them only if it is asked to.
LENGTHS = {
    "few": (of_ten, " ORDER BY id"),
    "few_loose": (of_ten, ""),
    "many": (of_a_hundredth, " ORDER BY id"),
    "many_loose": (of_a_hundredth, ""),
}


class Scripts:
    """Statements on a table with this number of rows; the same at each run."""

    def __init__(self, rows):
        self.rows = rows
        self.side = int(100 * rows**0.5)
        self.random = random.Random(20260101)

    def below(self, bound):
        return int(self.random.random() * bound)

    def row(self, number):
        x, y = self.below(self.side), self.below(self.side)
        return f"({number},{x},{x + self.below(20)},{y},{y + self.below(20)})"

    def inserts(self, at_once):
        for first in range(1, self.rows + 1, at_once):
            after = min(first + at_once, self.rows + 1)
            yield "INSERT INTO t VALUES" + ",".join(map(self.row, range(first, after))) + ";"

    def window(self, length):
        x, y = self.below(self.side), self.below(self.side)
        return f"maxX>={x} AND minX<={x + length} AND maxY>={y} AND minY<={y + length}"

    def statement(self, kind):
        if kind in ("all", "ids"):
            return f"SELECT {'*' if kind == 'all' else 'id'} FROM t;"
        if kind in LENGTHS:
            length, order = LENGTHS[kind]
            return f"SELECT * FROM t WHERE {self.window(length(self.side))}{order};"
        number = 1 + self.below(self.rows)
        if kind == "deletes":
            return f"DELETE FROM t WHERE id={number};"
        x = self.below(self.side)
        return f"UPDATE t SET minX={x},maxX={x + self.below(20)} WHERE id={number};"

"""A table of as many rows as it may have."""

from program import Outcome

MOST_ROWS = 1_048_576
ROWS_AT_ONCE = 1025


def rows(first, count):
    """An INSERT of points, one for each id."""
    values = ",".join(f"({at},{at},{at})" for at in range(first, first + count))
    return f"INSERT INTO t VALUES{values};"


def script():
    """All rows except one; then what is taken and what is refused at the limit."""
    yield "CREATE VIRTUAL TABLE t USING rtree_i32(id,a,b);"
    for first in range(1, MOST_ROWS - 1, ROWS_AT_ONCE):
        yield rows(first, min(ROWS_AT_ONCE, MOST_ROWS - first))
    yield rows(MOST_ROWS, 2)
    yield rows(MOST_ROWS, 1)
    yield rows(MOST_ROWS + 1, 1)
    yield "INSERT INTO t VALUES(NULL,0,0);"
    yield "INSERT OR IGNORE INTO t VALUES(5,0,0);"
    yield "INSERT OR REPLACE INTO t VALUES(7,-1,9);"
    yield "INSERT INTO t VALUES(0,0,0);"
    yield "SELECT * FROM t WHERE a<0;"
    yield f"SELECT id FROM t WHERE id>{MOST_ROWS - 2};"
    yield "SELECT rtreecheck('t');"
    yield "DELETE FROM t WHERE id=3;"
    yield rows(MOST_ROWS + 1, 1)
    yield f"SELECT id FROM t WHERE a>={MOST_ROWS};"


def full_table(program):
    """What is wrong with a table at the limit."""
    statements = list(script())
    blocks = len(range(1, MOST_ROWS - 1, ROWS_AT_ONCE))
    full = [f"refused {blocks + number} 14: table full" for number in (2, 4, 5, 8)]
    selected = ["7|-1|9", str(MOST_ROWS - 1), str(MOST_ROWS), "ok", str(MOST_ROWS), str(MOST_ROWS + 1)]
    wanted = "".join(line + "\n" for line in [*full, *selected]).encode()
    outcome = program.run(["run"], "\n".join(statements).encode())
    return None if outcome == Outcome(1, wanted) and not outcome.complained else str(outcome)

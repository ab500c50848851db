"""A plain list of rows and of windows, edit by edit: what each edit tells, from the definitions alone.

It reads the history of crates/test_tree/src/history.rt, and says where a line expects something else:

    python3 faults/plain_live.py crates/test_tree/src/history.rt
"""

import re
import sys

Box = tuple[tuple[int, int], ...]

STEP = re.compile(r'\(\s*Edit::(\w+),\s*(-?\d+),\s*\[([^\]]*)\],\s*\[([^\]]*)\],\s*"([^"]*)",?\s*\)')
COUNT = re.compile(r"HISTORY: \[Step; (\d+)\]")


def touch(first: Box, second: Box) -> bool:
    """Whether the boxes have a point in common, be it on an edge."""
    return all(a[0] <= b[1] and b[0] <= a[1] for a, b in zip(first, second))


class Live:
    """Rows and windows, and what was last told."""

    def __init__(self) -> None:
        self.rows: dict[int, Box] = {}
        self.windows: dict[int, Box] = {}

    def pairs(self) -> set[tuple[int, int]]:
        """Each window with each row that it sees."""
        return {(w, r) for w, a in self.windows.items() for r, b in self.rows.items() if touch(a, b)}

    def edit(self, kind: str, id: int, box: Box) -> str:
        """Carries out an edit, and lists what is told; or names the refusal, after which nothing has changed."""
        before, old = self.pairs(), dict(self.rows)
        boxes = self.rows if kind in ("Insert", "Remove", "Replace") else self.windows
        is_new = kind in ("Insert", "Watch")
        if is_new and id in boxes:
            return "taken"
        if not is_new and id not in boxes:
            return "missing"
        if kind in ("Remove", "Unwatch"):
            del boxes[id]
        else:
            boxes[id] = box
        after = self.pairs()
        told = [(w, r, "-") for w, r in before - after] + [(w, r, "+") for w, r in after - before]
        moved = {r for r in self.rows if r in old and old[r] != self.rows[r]}
        told += [(w, r, "=") for w, r in before & after if r in moved]
        return " ".join(f"{w}{sign}{r}" for w, r, sign in sorted(told))


def main() -> int:
    """Holds each line of the history against the plain lists."""
    live, wrong, steps = Live(), 0, 0
    with open(sys.argv[1], encoding="utf-8") as file:
        text = file.read()
    for kind, id, lo, hi, told in STEP.findall(text):
        ends = zip((int(x) for x in lo.split(",")), (int(x) for x in hi.split(",")))
        wanted = live.edit(kind, int(id), tuple(ends))
        steps += 1
        if wanted != told:
            print(f"{kind} {id} [{lo}] [{hi}]: {told!r}, not {wanted!r}")
            wrong += 1
    count = int(COUNT.search(text)[1])
    print(f"{steps} of {count} edits, {wrong} wrong")
    return 1 if wrong or steps != count else 0


if __name__ == "__main__":
    sys.exit(main())

"""Says of each thing that moves which fences it leaves, comes into, and moves inside of.

    PYTHONPATH=bindings/python python3 examples/fences.py 10000 10000 100000

FENCES, THINGS and MOVES are numbers. Fences are windows, in a tree of their own. The things stand in another tree, and the fences are
searched at the old and at the new box of a thing that moves. A line is `-FENCE THING`, `+FENCE THING` or `=FENCE THING`; with `time`
as a fourth word only the number of lines and the microseconds a move are printed.
"""

import sys
import time

from juicedelta import RTree

MAP, WIDEST_FENCE, WIDEST_THING, STEP = 100_000, 2_000, 20, 100


def moved(fences, things, thing, box):
    """Moves a thing to a box: what that means for each fence, by rising id."""
    before = set(fences.intersection(things.box(thing)))
    after = set(fences.intersection(box))
    things.move(thing, box)
    return [("=" if fence in before & after else "+" if fence in after else "-", fence) for fence in sorted(before | after)]


def numbers():
    """A sequence that is always the same."""
    state = 1
    while True:
        state = (state * 6364136223846793005 + 1442695040888963407) % 2**64
        yield state >> 33


def filled(rows, widest, roll):
    tree = RTree()
    for id in range(1, rows + 1):
        west, south, width, height = roll(MAP), roll(MAP), roll(widest), roll(widest)
        tree.insert(id, (west, south, west + width, south + height))
    return tree


def main(fence_count, thing_count, move_count, is_timed=False):
    """Moves things about, always in the same way."""
    sequence = numbers()

    def roll(limit):
        return next(sequence) % limit

    fences, things = filled(fence_count, WIDEST_FENCE, roll), filled(thing_count, WIDEST_THING, roll)
    lines, begun = 0, time.process_time()
    for _ in range(move_count):
        thing = 1 + roll(thing_count)
        west, south, east, north = things.box(thing)
        x, y = roll(2 * STEP + 1) - STEP, roll(2 * STEP + 1) - STEP
        for what, fence in moved(fences, things, thing, (west + x, south + y, east + x, north + y)):
            lines += 1
            if not is_timed:
                print(f"{what}{fence} {thing}")
    if is_timed:
        print(f"{lines} lines; {(time.process_time() - begun) / move_count * 1e6:.1f} us a move")


if __name__ == "__main__":
    main(*map(int, sys.argv[1:4]), len(sys.argv) > 4)

"""Keeps what many screens show while carts move and screens pan.

    PYTHONPATH=bindings/python python3 examples/screens.py 10000 100000 20

SCREENS, CARTS and FRAMES are numbers. In each frame a tenth of the carts move, and one screen in a hundred pans. Each edit says what
that changes on which screens; nothing else is looked at. A line tells how many changes of each kind there were in a frame, and at the end
how many carts the first screen shows, by its copy, which follows the changes. With `time` as a fourth word each line also has the
microseconds an edit. If a copy of a screen isn't what a search finds there, the program says so.
"""

import random
import sys
import time
from collections import Counter

from juicedelta import Live

MAP, WIDEST_CART, STEP = 100_000, 20, 100
SCREEN, PAN = (1_920, 1_080), 200


class Screens:
    """Live windows, and a copy of what each screen shows."""

    def __init__(self, screens, carts, rolls):
        self.live, self.rolls, self.screens, self.carts = Live(), rolls, {}, {}
        self.copies, self.kinds = {screen: set() for screen in range(screens)}, Counter()
        for cart in range(carts):
            west, south, size = rolls.randrange(MAP), rolls.randrange(MAP), rolls.randrange(WIDEST_CART)
            self.carts[cart] = west, south, west + size, south + size
            self.live.insert(cart, self.carts[cart])
        for screen in range(screens):
            west, south = rolls.randrange(MAP), rolls.randrange(MAP)
            self.screens[screen] = west, south, west + SCREEN[0], south + SCREEN[1]
            self.follow(self.live.watch(screen, self.screens[screen]))

    def follow(self, changes):
        """Draws what changed."""
        for screen, cart, kind in changes:
            self.kinds[kind] += 1
            if kind == "came":
                self.copies[screen].add(cart)
            elif kind == "left":
                self.copies[screen].remove(cart)

    def step(self, box, most):
        """A box that is a little farther."""
        x, y = (self.rolls.randrange(-most, most + 1) for _ in range(2))
        west, south, east, north = box
        return west + x, south + y, east + x, north + y

    def frame(self):
        """A tenth of the carts move, and a few screens pan. Answers how many edits that was."""
        moved = [self.rolls.randrange(len(self.carts)) for _ in range(len(self.carts) // 10)]
        panned = [self.rolls.randrange(len(self.screens)) for _ in range(1 + len(self.screens) // 100)]
        for cart in moved:
            self.carts[cart] = self.step(self.carts[cart], STEP)
            self.follow(self.live.move(cart, self.carts[cart]))
        for screen in panned:
            self.screens[screen] = self.step(self.screens[screen], PAN)
            self.follow(self.live.shift(screen, self.screens[screen]))
        return len(moved) + len(panned)


def main(screen_count, cart_count, frame_count, is_timed=False):
    """Shows some frames, always the same."""
    screens = Screens(screen_count, cart_count, random.Random(1))
    for frame in range(1, frame_count + 1):
        screens.kinds.clear()
        begun = time.process_time()
        edits = screens.frame()
        spent = f"; {(time.process_time() - begun) / edits * 1e6:.1f} us an edit" if is_timed else ""
        counts = ", ".join(f"{screens.kinds[kind]} {kind}" for kind in ("came", "left", "moved"))
        print(f"frame {frame}: {counts}{spent}")
    for screen, copy in screens.copies.items():
        if copy != set(screens.live.intersection(screens.screens[screen])):
            raise SystemExit(f"the copy of screen {screen} isn't what it shows")
    print(f"screen 0 shows {len(screens.copies[0])} carts, and each copy is right")


if __name__ == "__main__":
    main(*map(int, sys.argv[1:4]), len(sys.argv) > 4)

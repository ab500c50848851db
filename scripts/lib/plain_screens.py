#!/usr/bin/env python3
"""plain_screens.py SCREENS CARTS FRAMES: prints what examples/screens.py must print, by a loop over all screens, or all carts."""

import random
import sys

rolls = random.Random(1)
screen_count, cart_count, frame_count = map(int, sys.argv[1:])
carts, screens = [], []


def touches(box, other):
    return box[0] <= other[2] and other[0] <= box[2] and box[1] <= other[3] and other[1] <= box[3]


def stepped(box, most):
    x = rolls.randrange(-most, most + 1)
    y = rolls.randrange(-most, most + 1)
    return box[0] + x, box[1] + y, box[2] + x, box[3] + y


def count(counts, old, new, others, is_cart):
    """Counts how the box stands to others before and after."""
    for other in others:
        kind = {(True, False): "left", (False, True): "came", (True, True): "moved"}.get((touches(old, other), touches(new, other)))
        if kind and (kind != "moved" or is_cart and old != new):
            counts[kind] += 1


for _ in range(cart_count):
    west, south, size = rolls.randrange(100000), rolls.randrange(100000), rolls.randrange(20)
    carts.append((west, south, west + size, south + size))
for _ in range(screen_count):
    west, south = rolls.randrange(100000), rolls.randrange(100000)
    screens.append((west, south, west + 1920, south + 1080))
for frame in range(1, frame_count + 1):
    counts = {"came": 0, "left": 0, "moved": 0}
    moved = [rolls.randrange(cart_count) for _ in range(cart_count // 10)]
    panned = [rolls.randrange(screen_count) for _ in range(1 + screen_count // 100)]
    for cart in moved:
        old, carts[cart] = carts[cart], stepped(carts[cart], 100)
        count(counts, old, carts[cart], screens, True)
    for screen in panned:
        old, screens[screen] = screens[screen], stepped(screens[screen], 200)
        count(counts, old, screens[screen], carts, False)
    print(f"frame {frame}: {counts['came']} came, {counts['left']} left, {counts['moved']} moved")
print(f"screen 0 shows {sum(touches(screens[0], cart) for cart in carts)} carts, and each copy is right")

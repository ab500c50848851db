#!/usr/bin/env python3
"""plain_fences.py FENCES THINGS MOVES: prints what examples/fences.c and examples/fences.py must print, by a loop over all fences."""

import sys

state = 1


def roll(limit):
    global state
    state = (state * 6364136223846793005 + 1442695040888963407) & 0xFFFFFFFFFFFFFFFF
    return (state >> 33) % limit


def boxes(count, widest):
    made = []
    for _ in range(count):
        west, south, width, height = roll(100000), roll(100000), roll(widest), roll(widest)
        made.append((west, south, west + width, south + height))
    return made


def touches(box, other):
    return box[0] <= other[2] and other[0] <= box[2] and box[1] <= other[3] and other[1] <= box[3]


fence_count, thing_count, move_count = map(int, sys.argv[1:])
fences, things = boxes(fence_count, 2000), boxes(thing_count, 20)
for _ in range(move_count):
    thing = roll(thing_count)
    x, y = roll(201) - 100, roll(201) - 100
    old = things[thing]
    new = things[thing] = (old[0] + x, old[1] + y, old[2] + x, old[3] + y)
    for number, fence in enumerate(fences):
        sign = {(True, False): "-", (False, True): "+", (True, True): "="}.get((touches(fence, old), touches(fence, new)))
        if sign:
            print(f"{sign}{number + 1} {thing + 1}")
